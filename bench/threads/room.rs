//! Sixteen threads go into rooms of one place, of four and of sixty-four, and come out again: never
//! are more inside than a room has places.

mod common;
#[path = "../emitted/room.rs"]
mod room;

use common::{assert_state, in_threads};
use room::{Refused, Room};
use std::panic::{catch_unwind, set_hook};

const ROUNDS: usize = 500;

static ONE: Room<i64> = Room::with_data(1, 0);
const ADMITS: [bool; 3] = [Room::admits(0), Room::admits(1), Room::admits(i64::MAX)];

fn main() {
    set_hook(Box::new(|_| ()));
    assert_eq!(ADMITS, [false, true, true]);
    assert!(catch_unwind(|| Room::new(0)).is_err());
    assert!(catch_unwind(|| Room::with_data(i64::MIN, 7)).is_err());
    fills(&ONE, 1);
    fills(&Room::with_data(4, 0), 4);
    fills(&Room::with_data(64, 0), 64);
    let own = Room::new(2);
    own.put();
    assert_eq!(own.try_put(), Ok(()));
    assert_eq!(own.try_put(), Err(Refused));
    assert_eq!(own.get(), 1);
    assert_state(&own, "cap: 2, count: 1");
}

/// The data counts who is inside by itself.
fn fills(room: &Room<i64>, places: i64) {
    in_threads(16, |_| {
        for _ in 0..ROUNDS {
            let inside = room.put_with(|inside| {
                *inside += 1;
                *inside
            });
            assert!((1..=places).contains(&inside));
            assert!(room.get_with(|inside, left| {
                *inside -= 1;
                *inside == left
            }));
        }
    });
    assert_state(room, &format!("cap: {places}, count: 0"));
}
