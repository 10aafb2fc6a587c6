//! Each call overflows, and hands on.

mod common;
#[path = "../emitted/up.rs"]
mod up;

use common::{assert_state, in_threads};
use up::{Failed, Overflow, Up};

fn main() {
    let up = Up::new();
    in_threads(32, |_| {
        for _ in 0..512 {
            assert_eq!(up.inc(), Err(Overflow));
        }
    });
    assert_eq!(up.try_inc(), Err(Failed::Overflow));
    assert_state(&up, "x: 9223372036854775807");
}
