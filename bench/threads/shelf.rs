//! Twelve threads read, and four write. Whoever ends has started, and nobody else may end.

mod common;
#[path = "../emitted/shelf.rs"]
mod shelf;

use common::{assert_state, in_threads};
use shelf::{Failed, Refused, Shelf};
use std::panic::{catch_unwind, resume_unwind, AssertUnwindSafe};

const READERS: usize = 12;
const ROUNDS: i64 = 200;

/// Leave to read, until it is dropped.
struct Leave<'a>(&'a Shelf<i64>);

impl<'a> Leave<'a> {
    fn wait(shelf: &'a Shelf<i64>) -> Self {
        shelf.start_read().unwrap();
        Self(shelf)
    }
}

impl Drop for Leave<'_> {
    fn drop(&mut self) {
        self.0.end_read_with(|ends, _| *ends += 1).unwrap();
    }
}

/// Now and then a reader panics, and its leave ends all the same.
fn read(shelf: &Shelf<i64>, round: i64) {
    let reader = catch_unwind(AssertUnwindSafe(|| {
        let _leave = Leave::wait(shelf);
        if round % 10 == 0 {
            resume_unwind(Box::new("a reader that fails"));
        }
    }));
    assert_eq!(reader.is_err(), round % 10 == 0);
}

fn write(shelf: &Shelf<i64>) {
    shelf.start_write();
    assert_eq!(shelf.end_read(), Err(Refused));
    assert_eq!(shelf.end_write(0), Err(Failed::Refused));
    shelf.end_write(1).unwrap();
}

fn main() {
    let mut shelf = Shelf::with_data(0);
    assert_eq!(shelf.end_read(), Err(Refused));
    assert_eq!(shelf.end_write(1), Err(Failed::Refused));
    in_threads(16, |thread| {
        for round in 0..ROUNDS {
            if thread < READERS {
                read(&shelf, round);
            } else {
                write(&shelf);
            }
        }
    });
    shelf.wait_until(4 * ROUNDS);
    assert_state(&shelf, "state: 0, written: 800");
    assert_eq!(*shelf.get_mut(), 12 * ROUNDS);
    shelf.start_write();
    assert_eq!(shelf.end_write(i64::MAX), Err(Failed::Overflow));
    assert_state(&shelf, "state: -1, written: 800");
    assert_eq!(shelf.end_write_with(2, |ends| *ends), Ok(12 * ROUNDS));
    shelf.start_read().unwrap();
    shelf.start_read().unwrap();
    assert_eq!(shelf.end_read(), Ok(1));
    assert_eq!(shelf.end_read(), Ok(0));
    assert_eq!(shelf.end_read(), Err(Refused));
    shelf.forget();
    assert_state(&shelf, "state: 0, written: 0");
}
