//! The work of `expresso stress N` as one writes it by hand: a bounded buffer behind a mutex with two conditions,
//! and a thread for each client. Built by `rustc -O --edition 2021 peer.rs`.
//!
//! The buffer has room for `1 + N % 7`. Sixteen clients put 512 times each, and sixteen get 512 times each.

use std::process::ExitCode;
use std::sync::{Condvar, Mutex};
use std::{env, thread};

/// How many clients put, and how many get.
const CLIENTS_A_SIDE: u64 = 16;

/// How many calls each client makes.
const CALLS_A_CLIENT: u64 = 512;

/// A buffer that counts what it holds.
struct Buffer {
    capacity: u64,
    count: Mutex<u64>,
    not_full: Condvar,
    not_empty: Condvar,
}

impl Buffer {
    fn new(capacity: u64) -> Buffer {
        Buffer {
            capacity,
            count: Mutex::new(0),
            not_full: Condvar::new(),
            not_empty: Condvar::new(),
        }
    }

    /// Waits until there is room, and puts one. One more thing in the buffer is enough for one `get` and no more, and
    /// all who wait on `not_empty` wait for the same: so `notify_one` is enough, here and in `get`, and no call needs
    /// `notify_all`.
    fn put(&self) {
        let count = self.count.lock().unwrap();
        let mut count = self
            .not_full
            .wait_while(count, |count| *count >= self.capacity)
            .unwrap();
        *count += 1;
        drop(count);
        self.not_empty.notify_one();
    }

    /// Waits until there is something, and gets one. It makes room for one `put` and no more.
    fn get(&self) {
        let count = self.count.lock().unwrap();
        let mut count = self
            .not_empty
            .wait_while(count, |count| *count == 0)
            .unwrap();
        *count -= 1;
        drop(count);
        self.not_full.notify_one();
    }
}

/// Makes a client's calls, and answers how many it made.
fn make_calls(call: impl Fn()) -> u64 {
    let mut made = 0;
    for _ in 0..CALLS_A_CLIENT {
        call();
        made += 1;
    }
    made
}

/// Runs all clients, each in a thread of its own, and answers how many calls they made.
fn run(buffer: &Buffer) -> u64 {
    thread::scope(|scope| {
        let mut clients = Vec::new();
        for _ in 0..CLIENTS_A_SIDE {
            clients.push(scope.spawn(|| make_calls(|| buffer.put())));
        }
        for _ in 0..CLIENTS_A_SIDE {
            clients.push(scope.spawn(|| make_calls(|| buffer.get())));
        }
        clients
            .into_iter()
            .map(|client| client.join().unwrap())
            .sum()
    })
}

fn main() -> ExitCode {
    let Some(number) = env::args().nth(1).and_then(|word| word.parse::<u64>().ok()) else {
        eprintln!("usage: peer N");
        return ExitCode::from(2);
    };
    let buffer = Buffer::new(1 + number % 7);
    let calls = run(&buffer);
    println!("calls {calls}");
    println!("done");
    println!("state count={}", buffer.count.lock().unwrap());
    ExitCode::SUCCESS
}
