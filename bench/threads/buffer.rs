//! Sixteen threads put items, and sixteen get them; every fourth call of each has a function that
//! panics, and none of the others is lost for that.

#[path = "../emitted/buffer.rs"]
mod buffer;
mod common;

use std::collections::VecDeque;
use std::panic::{catch_unwind, set_hook, AssertUnwindSafe};
use std::sync::atomic::{AtomicUsize, Ordering};

use buffer::{Buffer, Refused};
use common::{assert_state, in_threads};

const EACH: usize = 512;

static COUNTED: Buffer = Buffer::new();
static QUEUE: Buffer<VecDeque<usize>> = Buffer::with_data(VecDeque::new());

fn main() {
    set_hook(Box::new(|_| ()));
    counts();
    carries_items();
    (0..50).for_each(|_| hands_on());
    keeps_data();
}

fn counts() {
    in_threads(32, |thread| {
        for _ in 0..EACH {
            if thread % 2 == 0 {
                COUNTED.put();
            } else {
                COUNTED.get();
            }
        }
    });
    assert_state(&COUNTED, "count: 0");
    assert_eq!(COUNTED.try_get(), Err(Refused));
    assert_eq!(COUNTED.try_put(), Ok(()));
    assert_eq!(COUNTED.try_put(), Err(Refused));
    assert_state(&COUNTED, "count: 1");
    assert!(!COUNTED.is_poisoned());
}

fn carries_items() {
    let got = AtomicUsize::new(0);
    in_threads(32, |thread| {
        for item in 0..EACH {
            if item % 4 == 3 {
                panics(thread);
            }
            if thread % 2 == 0 {
                let length = QUEUE.put_with(|queue| {
                    queue.push_back(item);
                    queue.len()
                });
                assert_eq!(length, 1);
            } else {
                let item = QUEUE.get_with(VecDeque::pop_front);
                got.fetch_add(item.expect("each put adds one"), Ordering::Relaxed);
            }
        }
    });
    assert_eq!(got.into_inner(), 16 * (0..EACH).sum::<usize>());
    assert!(QUEUE.is_poisoned());
    assert_state(&QUEUE, "count: 0");
    assert_eq!(QUEUE.try_get_with(VecDeque::pop_front), Err(Refused));
    assert_eq!(QUEUE.try_put_with(|queue| queue.push_back(7)), Ok(()));
    assert_eq!(QUEUE.try_put_with(|queue| queue.push_back(8)), Err(Refused));
    assert_eq!(QUEUE.try_get_with(VecDeque::pop_front), Ok(Some(7)));
}

/// A call whose function panics: it waits as the others do, and is as if it had not been made.
fn panics(thread: usize) {
    let panicked = catch_unwind(AssertUnwindSafe(|| {
        if thread % 2 == 0 {
            QUEUE.put_with(|_| panic!("no put"))
        } else {
            QUEUE.get_with(|_| panic!("no get"))
        }
    }));
    assert!(panicked.is_err());
}

/// Two wait for one item, and the first that is let in panics: the other gets it.
fn hands_on() {
    let (room, panicked) = (Buffer::new(), AtomicUsize::new(0));
    let got = AtomicUsize::new(0);
    std::thread::scope(|scope| {
        for _ in 0..2 {
            scope.spawn(|| {
                let call = catch_unwind(AssertUnwindSafe(|| {
                    room.get_with(|_| {
                        assert_ne!(panicked.fetch_add(1, Ordering::Relaxed), 0);
                    });
                }));
                got.fetch_add(usize::from(call.is_ok()), Ordering::Relaxed);
            });
        }
        std::thread::sleep(std::time::Duration::from_millis(5));
        room.put();
    });
    assert_eq!(got.into_inner(), 1);
}

fn keeps_data() {
    let mut own = Buffer::with_data(vec![1]);
    own.get_mut().push(2);
    own.put_with(|data| data.push(3));
    assert_eq!(own.into_inner(), [1, 2, 3]);
    Buffer::default().put();
}
