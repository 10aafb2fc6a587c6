//! Ten threads for each of three at a table eat and think.

mod common;
#[path = "../emitted/derived_table.rs"]
mod table;

use common::{assert_state, in_threads};
use table::{Refused, Table};

fn main() {
    let table = Table::new();
    in_threads(30, |thread| {
        let (eat, think): (fn(&Table), fn(&Table)) = match thread % 3 {
            0 => (Table::eat1, Table::think1),
            1 => (Table::eat2, Table::think2),
            _ => (Table::eat3, Table::think3),
        };
        for _ in 0..256 {
            eat(&table);
            think(&table);
        }
    });
    assert_state(&table, "a: 0, b: 0, c: 0");
    assert_eq!(table.try_think2(), Err(Refused));
    assert_eq!(table.try_eat2(), Ok(()));
}
