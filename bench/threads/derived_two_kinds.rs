//! Threads put things of two kinds, and get as many of each.

mod common;
#[path = "../emitted/derived_two_kinds.rs"]
mod two_kinds;

use common::{assert_state, in_threads};
use two_kinds::{Refused, TwoKinds};

fn main() {
    let things = TwoKinds::new();
    in_threads(32, |thread| {
        for _ in 0..256 {
            match thread % 8 {
                0 => things.put_red(),
                1 => things.put_blue(),
                2 | 3 => things.put(thread % 2 == 0),
                4 | 5 => things.get_red(),
                _ => things.get_blue(),
            }
        }
    });
    assert_state(&things, "total: 0, red: 0");
    in_threads(2, |_| things.put_red());
    things.drain();
    assert_state(&things, "total: 0, red: 0");
    assert_eq!(things.try_get_blue(), Err(Refused));
}
