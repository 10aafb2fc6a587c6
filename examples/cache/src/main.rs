//! Eight threads ask for the same results. Each result is made once, and read by all.

use std::sync::atomic::{AtomicUsize, Ordering};
use std::thread;

use cache::Cache;

const THREADS: usize = 8;
const NUMBERS: u64 = 1_000;

fn main() {
    let cache = Cache::new();
    let made = AtomicUsize::new(0);
    let asked = AtomicUsize::new(0);
    thread::scope(|scope| {
        for _ in 0..THREADS {
            scope.spawn(|| {
                for number in 1..=NUMBERS {
                    asked.fetch_add(1, Ordering::Relaxed);
                    cache.get_or_make(number, |&number| {
                        made.fetch_add(1, Ordering::Relaxed);
                        steps_to_one(number)
                    });
                }
            });
        }
    });
    let (asked, made) = (asked.into_inner(), made.into_inner());
    println!("{THREADS} threads asked {asked} times, and {made} results were made");
    let longest = cache.read().values().copied().max();
    println!("the longest way to 1 has {} steps", longest.unwrap_or(0));
}

/// How often a number is halved, or tripled and raised by 1, until it is 1.
fn steps_to_one(mut number: u64) -> u32 {
    let mut steps = 0;
    while number != 1 {
        number = match number % 2 {
            0 => number / 2,
            _ => 3 * number + 1,
        };
        steps += 1;
    }
    steps
}
