//! What the programs of bench/emitted.sh share.

use std::process;
use std::sync::{Barrier, RwLock};
use std::thread;
use std::time::Instant;

/// Has so many threads do the work, each with its number from 0, which answers how many calls it
/// made. Prints how many calls they made in how many nanoseconds: from when all threads are there
/// until the last has ended.
pub fn time(threads: u64, work: impl Fn(u64) -> u64 + Sync) {
    let there = Barrier::new(threads as usize + 1);
    let start = RwLock::new(());
    let (calls, spent) = thread::scope(|scope| {
        let held = start.write().unwrap();
        let mut working = Vec::new();
        for thread in 0..threads {
            let (there, start, work) = (&there, &start, &work);
            working.push(scope.spawn(move || {
                there.wait();
                drop(start.read().unwrap());
                work(thread)
            }));
        }
        there.wait();
        let begun = Instant::now();
        drop(held);
        let calls: u64 = working.into_iter().map(|one| one.join().unwrap()).sum();
        (calls, begun.elapsed())
    });
    println!("calls {calls} nanoseconds {}", spent.as_nanos());
}

/// The number that a word says, or the end of the program with its usage.
pub fn number(word: &str, usage: &str) -> u64 {
    word.parse().unwrap_or_else(|_| wrong_words(usage))
}

/// Ends the program with its usage.
pub fn wrong_words(usage: &str) -> ! {
    eprintln!("usage: {usage}");
    process::exit(2)
}
