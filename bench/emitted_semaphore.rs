//! A semaphore with two permits: the module that `expresso emit` prints of it, beside the same as
//! one writes it by hand. bench/emitted.sh puts this file and the module, `semaphore.rs`, into one
//! folder.
//!
//! `emitted_semaphore KIND THREADS CALLS` has so many threads acquire and release so often in all.

use std::env;
use std::sync::mpsc::{sync_channel, Receiver, SyncSender};
use std::sync::{Condvar, Mutex};

mod emitted_common;
mod semaphore;

use emitted_common::{number, time, wrong_words};

/// How many permits there are at the start, as in the monitor.
const PERMITS: i64 = 2;

const USAGE: &str = "emitted_semaphore emitted|hand|counted|channel|parking THREADS CALLS";

/// A semaphore that threads share.
trait Semaphore: Sync {
    /// With all its permits.
    fn full() -> Self;

    /// Waits until there is a permit, and takes it.
    fn acquire(&self);

    /// Gives a permit back.
    fn release(&self);
}

impl Semaphore for semaphore::Semaphore {
    fn full() -> Self {
        Self::new()
    }

    fn acquire(&self) {
        self.acquire();
    }

    fn release(&self) {
        self.release().unwrap();
    }
}

/// By hand: one waiter is woken for each permit.
struct Hand {
    permits: Mutex<i64>,
    some: Condvar,
}

impl Semaphore for Hand {
    fn full() -> Self {
        Self {
            permits: Mutex::new(PERMITS),
            some: Condvar::new(),
        }
    }

    fn acquire(&self) {
        let permits = self.permits.lock().unwrap();
        *self
            .some
            .wait_while(permits, |permits| *permits == 0)
            .unwrap() -= 1;
    }

    fn release(&self) {
        *self.permits.lock().unwrap() += 1;
        self.some.notify_one();
    }
}

/// By hand, with sleepers counted: nobody is notified where nobody sleeps.
struct Counted {
    state: Mutex<CountedState>,
    some: Condvar,
}

struct CountedState {
    permits: i64,
    asleep: usize,
}

impl Semaphore for Counted {
    fn full() -> Self {
        let (permits, asleep) = (PERMITS, 0);
        Self {
            state: Mutex::new(CountedState { permits, asleep }),
            some: Condvar::new(),
        }
    }

    fn acquire(&self) {
        let mut state = self.state.lock().unwrap();
        while state.permits == 0 {
            state.asleep += 1;
            state = self.some.wait(state).unwrap();
            state.asleep -= 1;
        }
        state.permits -= 1;
    }

    fn release(&self) {
        let mut state = self.state.lock().unwrap();
        state.permits += 1;
        let asleep = state.asleep;
        drop(state);
        if asleep > 0 {
            self.some.notify_one();
        }
    }
}

/// A channel of std with room for what is taken.
struct Channel {
    sender: SyncSender<()>,
    receiver: Mutex<Receiver<()>>,
}

impl Semaphore for Channel {
    fn full() -> Self {
        let (sender, receiver) = sync_channel(PERMITS as usize);
        let receiver = Mutex::new(receiver);
        Self { sender, receiver }
    }

    fn acquire(&self) {
        self.sender.send(()).unwrap();
    }

    fn release(&self) {
        self.receiver.lock().unwrap().recv().unwrap();
    }
}

/// As [`Hand`], with the mutex and the condition variable of the crate `parking_lot`.
#[cfg(parking_lot)]
struct Parking {
    permits: parking_lot::Mutex<i64>,
    some: parking_lot::Condvar,
}

#[cfg(parking_lot)]
impl Semaphore for Parking {
    fn full() -> Self {
        Self {
            permits: parking_lot::Mutex::new(PERMITS),
            some: parking_lot::Condvar::new(),
        }
    }

    fn acquire(&self) {
        let mut permits = self.permits.lock();
        self.some.wait_while(&mut permits, |permits| *permits == 0);
        *permits -= 1;
    }

    fn release(&self) {
        *self.permits.lock() += 1;
        self.some.notify_one();
    }
}

/// So many threads acquire and release so often in all.
fn run<S: Semaphore>(threads: u64, calls: u64) {
    let semaphore = S::full();
    time(threads, |_| {
        let mut made = 0;
        for _ in 0..calls / threads {
            semaphore.acquire();
            semaphore.release();
            made += 2;
        }
        made
    });
}

fn main() {
    let words: Vec<String> = env::args().collect();
    let [_, kind, threads, calls] = words.as_slice() else {
        wrong_words(USAGE)
    };
    let (threads, calls) = (number(threads, USAGE), number(calls, USAGE));
    match kind.as_str() {
        "emitted" => run::<semaphore::Semaphore>(threads, calls),
        "hand" => run::<Hand>(threads, calls),
        "counted" => run::<Counted>(threads, calls),
        "channel" => run::<Channel>(threads, calls),
        #[cfg(parking_lot)]
        "parking" => run::<Parking>(threads, calls),
        _ => wrong_words(USAGE),
    }
}
