//! Three threads meet. With more the last of them may be too few for a round.

#[path = "../emitted/barrier.rs"]
mod barrier;
mod common;

use barrier::{Barrier, Failed};
use common::{assert_state, in_threads};

fn main() {
    let barrier = Barrier::new();
    in_threads(3, |_| {
        for _ in 0..2730 {
            barrier.arrive().unwrap();
            assert!(barrier.leave().unwrap() < Barrier::PARTIES);
        }
    });
    assert_state(&barrier, "waiting: 0, open: false");
    assert_eq!(barrier.try_leave(), Err(Failed::Refused));
}
