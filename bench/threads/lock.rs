//! Threads take the lock and release it.

mod common;
#[path = "../emitted/lock.rs"]
mod lock;

use common::{assert_state, in_threads};
use lock::{Lock, Refused};

fn main() {
    let lock = Lock::default();
    in_threads(32, |_| {
        for _ in 0..256 {
            lock.acquire();
            lock.release();
        }
    });
    assert_state(&lock, "held: false");
    assert_eq!(lock.try_acquire(), Ok(()));
    assert_eq!(lock.try_acquire(), Err(Refused));
    assert_eq!(lock.try_release(), Ok(()));
}
