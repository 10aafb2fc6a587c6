//! Two threads meet. With more the last of them may be alone.

mod common;
#[path = "../emitted/meeting.rs"]
mod meeting;

use common::{assert_state, in_threads};
use meeting::Meeting;

fn main() {
    let mut meeting = Meeting::with_data(0);
    in_threads(2, |_| {
        for _ in 0..4096 {
            meeting.meet_with(|times| *times += 1).unwrap();
        }
    });
    assert_state(&meeting, "waiting: 0, round: 4096");
    assert_eq!(*meeting.get_mut(), 2 * 4096);
}
