//! The machine of a monitor by sections (`machine.rs`) behind a `std::sync::Mutex`, as one writes it in plain Rust: what
//! `lock.sh` measures the running lock against. Built by `rustc -O --edition 2021 lock.rs`.
//!
//! `lock NAME THREADS ROUNDS [CALLS]`, where NAME is `level` or `buffer`, opens the machine so many times with 32 clients
//! of CALLS (512) calls each, and has the threads make all sections. It prints a line for each round: how many sections
//! the log has, and how many nanoseconds they took.

use std::process::ExitCode;
use std::sync::Mutex;
use std::time::Instant;
use std::{env, thread};

include!("machine.rs");

const CALLS_A_CLIENT: usize = 512;

/// One thread's part: it tries its clients in turn until each has made all its calls.
fn work<M: Monitor>(shared: &Mutex<Machine<M>>, first: usize, threads: usize, calls: usize) {
    let mut left = CLIENTS / threads * calls;
    while left > 0 {
        for client in (first..CLIENTS).step_by(threads) {
            let section = shared.lock().unwrap().section(client);
            if let Ok(Entry {
                outcome: Outcome::Replies { .. },
                ..
            }) = section
            {
                left -= 1;
            }
        }
    }
}

/// A round: how many sections were made, and in how many nanoseconds.
fn measure<M: Monitor>(monitor: M, threads: usize, calls: usize) -> (usize, u128) {
    let shared = Mutex::new(Machine::open(monitor, calls));
    let start = Instant::now();
    thread::scope(|scope| {
        for first in 0..threads {
            let shared = &shared;
            scope.spawn(move || work(shared, first, threads, calls));
        }
    });
    let spent = start.elapsed().as_nanos();
    let sections = shared.lock().unwrap().log.len();
    (sections, spent)
}

/// Makes the rounds, and prints each.
fn measure_all<M: Monitor>(make: impl Fn() -> M, threads: usize, rounds: usize, calls: usize) {
    for _ in 0..rounds {
        let (sections, nanoseconds) = measure(make(), threads, calls);
        println!("sections {sections} nanoseconds {nanoseconds}");
    }
}

fn main() -> ExitCode {
    let words: Vec<String> = env::args().skip(1).collect();
    let numbers: Option<Vec<usize>> = words.iter().skip(1).map(|word| word.parse().ok()).collect();
    let (threads, rounds, calls) = match numbers.as_deref() {
        Some(&[threads @ (1 | 2 | 4 | 8 | 16 | 32), rounds]) => (threads, rounds, CALLS_A_CLIENT),
        Some(&[threads @ (1 | 2 | 4 | 8 | 16 | 32), rounds, calls]) => (threads, rounds, calls),
        _ => return usage(),
    };
    match words[0].as_str() {
        "level" => measure_all(|| Level { count: 0 }, threads, rounds, calls),
        "buffer" => measure_all(|| Buffer { count: 0 }, threads, rounds, calls),
        _ => return usage(),
    }
    ExitCode::SUCCESS
}

fn usage() -> ExitCode {
    eprintln!("usage: lock level|buffer THREADS ROUNDS [CALLS], with 1, 2, 4, 8, 16 or 32 threads");
    ExitCode::from(2)
}
