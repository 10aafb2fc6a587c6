//! Threads share two units.

mod common;
#[path = "../emitted/semaphore.rs"]
mod semaphore;

use common::{assert_state, in_threads};
use semaphore::Semaphore;

fn main() {
    let semaphore = Semaphore::new();
    in_threads(32, |_| {
        for _ in 0..256 {
            semaphore.acquire();
            semaphore.release().unwrap();
        }
    });
    assert_state(&semaphore, "free: 2");
    assert_eq!(semaphore.try_acquire(), Ok(()));
}
