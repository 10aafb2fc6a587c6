//! Threads push items with numbers and pop them, until a queue is closed; one with no places lets
//! nobody push.

mod common;
#[path = "../emitted/queue.rs"]
mod queue;

use common::{assert_state, in_threads};
use queue::{Queue, Refused};
use std::collections::VecDeque;
use std::panic::{catch_unwind, set_hook};
use std::sync::atomic::{AtomicI64, Ordering};

const LAST: i64 = 900;

static SMALL: Queue<VecDeque<i64>> = Queue::with_data(3, LAST, VecDeque::new());

fn main() {
    set_hook(Box::new(|_| ()));
    assert!(Queue::admits(0, 999));
    assert!(!Queue::admits(-1, 999));
    assert!(!Queue::admits(0, 1000));
    assert!(catch_unwind(|| Queue::new(-1, 999)).is_err());
    assert!(catch_unwind(|| Queue::new(1, 1000)).is_err());
    numbers_items();
    let none = Queue::new(0, 9);
    assert_eq!(none.try_push(), Err(Refused));
    assert!(none.admits_());
    assert_state(
        &none,
        "cap: 0, last_item: 9, free: 0, used: 0, next: 1, open: true",
    );
}

/// The items of nine threads are numbered from the first one up to the last one, and popped once.
fn numbers_items() {
    let sum = AtomicI64::new(0);
    in_threads(16, |thread| {
        for _ in 0..LAST / 9 {
            if thread < 9 {
                let item = SMALL.push_with(|items, item| {
                    items.push_back(item);
                    assert!(items.len() <= 3);
                    item
                });
                assert!((Queue::FIRST..=LAST).contains(&item));
            }
        }
        if thread >= 9 {
            while let Some(item) = SMALL.pop_with(|items, _| items.pop_front()).unwrap() {
                if sum.fetch_add(item, Ordering::Relaxed) + item == LAST * (LAST + 1) / 2 {
                    SMALL.close();
                }
            }
        }
    });
    assert_eq!(sum.into_inner(), LAST * (LAST + 1) / 2);
    assert_eq!(SMALL.try_push(), Err(Refused));
    assert_state(
        &SMALL,
        "cap: 3, last_item: 900, free: 3, used: 0, next: 901, open: false",
    );
}
