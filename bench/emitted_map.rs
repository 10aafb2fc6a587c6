//! A map that many threads read and few write: `examples/cache`, on the module that `expresso emit`
//! prints of its monitor, beside the same as one writes it by hand, and beside locks for readers
//! and writers. bench/emitted.sh builds the cache as a crate.
//!
//! `emitted_map KIND THREADS CALLS WRITES` has so many threads make so many calls in all, of which
//! WRITES in a hundred write.

use std::collections::HashMap;
use std::env;
use std::hint::black_box;
use std::sync::atomic::{AtomicU64, Ordering};
use std::sync::{Condvar, Mutex, RwLock};

use cache::Cache;

mod emitted_common;

use emitted_common::{number, time, wrong_words};

/// How many keys the map has. Each has the value 0 at the start.
const KEYS: u64 = 1_000;

const USAGE: &str = "emitted_map emitted|hand|counted|rwlock|parking THREADS CALLS WRITES";

type Map = HashMap<u64, u64>;

/// A map that threads share.
trait Shared: From<Map> + Sync {
    /// The value of this key.
    fn value(&self, key: u64) -> u64;

    /// Adds 1 to the value of this key.
    fn add_one(&self, key: u64);
}

impl Shared for Cache<u64, u64> {
    fn value(&self, key: u64) -> u64 {
        self.read()[&key]
    }

    fn add_one(&self, key: u64) {
        *self.write().get_mut(&key).unwrap() += 1;
    }
}

/// By hand, writers first, with the map beside the gate in a lock on which nobody waits. Writers
/// that wait are counted, as readers must know of them. Where `COUNTED` so are readers.
struct Hand<const COUNTED: bool> {
    gate: Mutex<Gate>,
    can_read: Condvar,
    can_write: Condvar,
    map: RwLock<Map>,
}

#[derive(Default)]
struct Gate {
    readers: usize,
    writing: bool,
    writers_waiting: usize,
    readers_waiting: usize,
}

impl Gate {
    fn may_read(&self) -> bool {
        !self.writing && self.writers_waiting == 0
    }

    fn may_write(&self) -> bool {
        !self.writing && self.readers == 0
    }
}

impl<const COUNTED: bool> From<Map> for Hand<COUNTED> {
    fn from(map: Map) -> Self {
        Self {
            gate: Mutex::default(),
            can_read: Condvar::new(),
            can_write: Condvar::new(),
            map: RwLock::new(map),
        }
    }
}

impl<const COUNTED: bool> Hand<COUNTED> {
    fn start_read(&self) {
        let mut gate = self.gate.lock().unwrap();
        while !gate.may_read() {
            gate.readers_waiting += 1;
            gate = self.can_read.wait(gate).unwrap();
            gate.readers_waiting -= 1;
        }
        gate.readers += 1;
    }

    fn end_read(&self) {
        let mut gate = self.gate.lock().unwrap();
        gate.readers -= 1;
        let wake_writer = gate.readers == 0 && gate.writers_waiting > 0;
        drop(gate);
        if wake_writer {
            self.can_write.notify_one();
        }
    }

    fn start_write(&self) {
        let mut gate = self.gate.lock().unwrap();
        while !gate.may_write() {
            gate.writers_waiting += 1;
            gate = self.can_write.wait(gate).unwrap();
            gate.writers_waiting -= 1;
        }
        gate.writing = true;
    }

    fn end_write(&self) {
        let mut gate = self.gate.lock().unwrap();
        gate.writing = false;
        let wake_writer = gate.writers_waiting > 0;
        let wake_readers = !COUNTED || gate.readers_waiting > 0;
        drop(gate);
        if wake_writer {
            self.can_write.notify_one();
        } else if wake_readers {
            self.can_read.notify_all();
        }
    }
}

impl<const COUNTED: bool> Shared for Hand<COUNTED> {
    fn value(&self, key: u64) -> u64 {
        self.start_read();
        let value = self.map.try_read().unwrap()[&key];
        self.end_read();
        value
    }

    fn add_one(&self, key: u64) {
        self.start_write();
        *self.map.try_write().unwrap().get_mut(&key).unwrap() += 1;
        self.end_write();
    }
}

impl Shared for RwLock<Map> {
    fn value(&self, key: u64) -> u64 {
        self.read().unwrap()[&key]
    }

    fn add_one(&self, key: u64) {
        *self.write().unwrap().get_mut(&key).unwrap() += 1;
    }
}

/// The lock of the crate `parking_lot`.
#[cfg(parking_lot)]
impl Shared for parking_lot::RwLock<Map> {
    fn value(&self, key: u64) -> u64 {
        self.read()[&key]
    }

    fn add_one(&self, key: u64) {
        *self.write().get_mut(&key).unwrap() += 1;
    }
}

/// Numbers that look like chance, and are the same in each run.
struct Chance(u64);

impl Chance {
    /// A number below 100.
    fn percent(&mut self) -> u64 {
        self.0 = self
            .0
            .wrapping_mul(6_364_136_223_846_793_005)
            .wrapping_add(1);
        (self.0 >> 33) % 100
    }
}

/// Makes the calls of one thread, and answers how many of them wrote.
fn make_calls(map: &impl Shared, thread: u64, calls: u64, writes: u64) -> u64 {
    let mut chance = Chance(thread);
    let mut written = 0;
    for call in 0..calls {
        let key = (thread + call) % KEYS;
        if chance.percent() < writes {
            map.add_one(key);
            written += 1;
        } else {
            black_box(map.value(key));
        }
    }
    written
}

/// So many threads make so many calls in all. Each that wrote is found in the map at the end.
fn run<S: Shared>(threads: u64, calls: u64, writes: u64) {
    let map = S::from((0..KEYS).map(|key| (key, 0)).collect::<Map>());
    let written = AtomicU64::new(0);
    time(threads, |thread| {
        let mine = make_calls(&map, thread, calls / threads, writes);
        written.fetch_add(mine, Ordering::Relaxed);
        calls / threads
    });
    let sum: u64 = (0..KEYS).map(|key| map.value(key)).sum();
    assert_eq!(sum, written.into_inner());
}

fn main() {
    let words: Vec<String> = env::args().collect();
    let [_, kind, threads, calls, writes] = words.as_slice() else {
        wrong_words(USAGE)
    };
    let [threads, calls, writes] = [threads, calls, writes].map(|word| number(word, USAGE));
    match kind.as_str() {
        "emitted" => run::<Cache<u64, u64>>(threads, calls, writes),
        "hand" => run::<Hand<false>>(threads, calls, writes),
        "counted" => run::<Hand<true>>(threads, calls, writes),
        "rwlock" => run::<RwLock<Map>>(threads, calls, writes),
        #[cfg(parking_lot)]
        "parking" => run::<parking_lot::RwLock<Map>>(threads, calls, writes),
        _ => wrong_words(USAGE),
    }
}
