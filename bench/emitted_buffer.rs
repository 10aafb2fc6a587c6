//! A buffer that counts what it holds: the module that `expresso emit` prints of it, beside the
//! same as one writes it by hand. bench/emitted.sh puts this file and the module, `buffer.rs`, into
//! one folder.
//!
//! `emitted_buffer KIND PUTTERS GETTERS ITEMS` has so many threads put the items, and so many get
//! them; `emitted_buffer KIND alone ITEMS` has one thread put and get each.

use std::env;
use std::sync::mpsc::{sync_channel, Receiver, SyncSender};
use std::sync::{Condvar, Mutex};

mod buffer;
mod emitted_common;

use emitted_common::{number, time, wrong_words};

/// How many items there is room for, in every kind.
const ROOM: i64 = buffer::Buffer::CAP;

const USAGE: &str =
    "emitted_buffer emitted|hand|counted|channel|parking PUTTERS GETTERS|alone ITEMS";

/// A buffer that threads share.
trait Buffer: Sync {
    /// Waits until there is room, and puts one.
    fn put(&self);

    /// Waits until there is something, and gets one.
    fn get(&self);
}

impl Buffer for buffer::Buffer {
    fn put(&self) {
        self.put();
    }

    fn get(&self) {
        self.get();
    }
}

/// By hand: one waiter is woken for each item and each place.
#[derive(Default)]
struct Hand {
    count: Mutex<i64>,
    not_full: Condvar,
    not_empty: Condvar,
}

impl Buffer for Hand {
    fn put(&self) {
        let count = self.count.lock().unwrap();
        let mut count = self
            .not_full
            .wait_while(count, |count| *count >= ROOM)
            .unwrap();
        *count += 1;
        drop(count);
        self.not_empty.notify_one();
    }

    fn get(&self) {
        let count = self.count.lock().unwrap();
        let mut count = self
            .not_empty
            .wait_while(count, |count| *count == 0)
            .unwrap();
        *count -= 1;
        drop(count);
        self.not_full.notify_one();
    }
}

/// By hand, with sleepers counted: nobody is notified where nobody sleeps.
#[derive(Default)]
struct Counted {
    state: Mutex<CountedState>,
    not_full: Condvar,
    not_empty: Condvar,
}

#[derive(Default)]
struct CountedState {
    count: i64,
    putters_asleep: usize,
    getters_asleep: usize,
}

impl Buffer for Counted {
    fn put(&self) {
        let mut state = self.state.lock().unwrap();
        while state.count >= ROOM {
            state.putters_asleep += 1;
            state = self.not_full.wait(state).unwrap();
            state.putters_asleep -= 1;
        }
        state.count += 1;
        let asleep = state.getters_asleep;
        drop(state);
        if asleep > 0 {
            self.not_empty.notify_one();
        }
    }

    fn get(&self) {
        let mut state = self.state.lock().unwrap();
        while state.count == 0 {
            state.getters_asleep += 1;
            state = self.not_empty.wait(state).unwrap();
            state.getters_asleep -= 1;
        }
        state.count -= 1;
        let asleep = state.putters_asleep;
        drop(state);
        if asleep > 0 {
            self.not_full.notify_one();
        }
    }
}

/// A channel of std. It has one receiver, which threads share by a mutex.
struct Channel {
    sender: SyncSender<()>,
    receiver: Mutex<Receiver<()>>,
}

impl Default for Channel {
    fn default() -> Self {
        let (sender, receiver) = sync_channel(ROOM as usize);
        let receiver = Mutex::new(receiver);
        Self { sender, receiver }
    }
}

impl Buffer for Channel {
    fn put(&self) {
        self.sender.send(()).unwrap();
    }

    fn get(&self) {
        self.receiver.lock().unwrap().recv().unwrap();
    }
}

/// As [`Hand`], with the mutex and the condition variables of the crate `parking_lot`.
#[cfg(parking_lot)]
#[derive(Default)]
struct Parking {
    count: parking_lot::Mutex<i64>,
    not_full: parking_lot::Condvar,
    not_empty: parking_lot::Condvar,
}

#[cfg(parking_lot)]
impl Buffer for Parking {
    fn put(&self) {
        let mut count = self.count.lock();
        self.not_full.wait_while(&mut count, |count| *count >= ROOM);
        *count += 1;
        drop(count);
        self.not_empty.notify_one();
    }

    fn get(&self) {
        let mut count = self.count.lock();
        self.not_empty.wait_while(&mut count, |count| *count == 0);
        *count -= 1;
        drop(count);
        self.not_full.notify_one();
    }
}

/// Makes so many calls, and answers how many it made.
fn make_calls(calls: u64, call: impl Fn()) -> u64 {
    let mut made = 0;
    for _ in 0..calls {
        call();
        made += 1;
    }
    made
}

/// One thread puts and gets each item.
fn alone(buffer: &impl Buffer, items: u64) {
    time(1, |_| {
        2 * make_calls(items, || {
            buffer.put();
            buffer.get();
        })
    });
}

/// So many threads put the items, and so many get them.
fn beside(buffer: &impl Buffer, putters: u64, getters: u64, items: u64) {
    time(putters + getters, |thread| {
        if thread < putters {
            make_calls(items / putters, || buffer.put())
        } else {
            make_calls(items / getters, || buffer.get())
        }
    });
}

fn run(buffer: &impl Buffer, load: &[&str]) {
    let number = |word| number(word, USAGE);
    match load {
        ["alone", items] => alone(buffer, number(items)),
        [putters, getters, items] => {
            beside(buffer, number(putters), number(getters), number(items));
        }
        _ => wrong_words(USAGE),
    }
}

fn main() {
    let words: Vec<String> = env::args().skip(1).collect();
    let words: Vec<&str> = words.iter().map(String::as_str).collect();
    match words.as_slice() {
        ["emitted", load @ ..] => run(&buffer::Buffer::new(), load),
        ["hand", load @ ..] => run(&Hand::default(), load),
        ["counted", load @ ..] => run(&Counted::default(), load),
        ["channel", load @ ..] => run(&Channel::default(), load),
        #[cfg(parking_lot)]
        ["parking", load @ ..] => run(&Parking::default(), load),
        _ => wrong_words(USAGE),
    }
}
