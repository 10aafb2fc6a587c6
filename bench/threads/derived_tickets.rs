//! Threads draw tickets, and enter or give up in their order.

mod common;
#[path = "../emitted/derived_tickets.rs"]
mod tickets;

use common::{assert_state, in_threads};
use tickets::{Refused, Tickets};

fn main() {
    let tickets = Tickets::new();
    in_threads(32, |thread| {
        for _ in 0..128 {
            let ticket = tickets.draw().unwrap();
            if thread % 4 == 0 {
                tickets.give_up(ticket);
            } else {
                tickets.enter(ticket);
                tickets.leave();
            }
        }
    });
    tickets.rest();
    assert_state(
        &tickets,
        "next: 4096, serving: 4096, busy: false, broken: false",
    );
    assert_eq!(tickets.try_enter(4096), Err(Refused));
    assert_eq!(tickets.try_fail(), Err(Refused));
}
