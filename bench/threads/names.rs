//! A monitor whose names have a meaning in Rust.

mod common;
#[path = "../emitted/names.rs"]
mod names;

use common::{assert_state, in_threads};
use names::{Failed, State_};

fn main() {
    let monitor = State_::new();
    in_threads(32, |_| assert_eq!(monitor.new_(2, true), Ok(false)));
    assert_eq!(monitor.await_(3, 5), Ok(-3));
    assert_eq!(monitor.try_await_(-3, 5), Err(Failed::Refused));
    assert_eq!(State_::MUTEX, -3);
    monitor.try_new_();
    assert_state(
        &monitor,
        "self_: 0, next: 4, startRead: true, start_read: false, match_: 2, match__: -2",
    );
}
