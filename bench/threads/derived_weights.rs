//! Threads take 5, 10 or 15, and others give one at a time.

mod common;
#[path = "../emitted/derived_weights.rs"]
mod weights;

use common::{assert_state, in_threads};
use weights::{Refused, Weights};

fn main() {
    let weights = Weights::new();
    in_threads(28, |thread| {
        if thread < 16 {
            (0..480).for_each(|_| weights.give());
            return;
        }
        for _ in 0..64 {
            match thread % 3 {
                0 => weights.take5(),
                1 => weights.take10(),
                _ => weights.take15(),
            }
        }
    });
    assert_state(&weights, "free: 0");
    assert_eq!(weights.try_take5(), Err(Refused));
}
