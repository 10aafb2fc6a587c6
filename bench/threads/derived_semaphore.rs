//! Threads take one unit or two, and give them back.

mod common;
#[path = "../emitted/derived_semaphore.rs"]
mod semaphore;

use common::{assert_state, in_threads};
use semaphore::{Refused, Semaphore};

fn main() {
    let semaphore = Semaphore::new();
    in_threads(32, |thread| {
        for _ in 0..256 {
            if thread % 2 == 0 {
                semaphore.take();
            } else {
                semaphore.take_two();
                semaphore.give();
            }
            semaphore.give();
        }
    });
    assert_eq!(semaphore.try_give(), Err(Refused));
    semaphore.take_all();
    in_threads(3, |_| semaphore.give());
    assert_state(&semaphore, "free: 3");
}
