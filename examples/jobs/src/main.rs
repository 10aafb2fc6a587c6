//! Counts primes, a range a job, by four workers.

use std::sync::mpsc;

use jobs::Workers;

const WORKERS: usize = 4;
const LIMIT: u32 = 100_000;
const STEP: u32 = 1_000;

fn main() {
    let workers = Workers::start(WORKERS);
    let (found, counts) = mpsc::channel();
    for start in (0..LIMIT).step_by(STEP as usize) {
        let found = found.clone();
        workers
            .submit(move || {
                let primes = (start..start + STEP)
                    .filter(|&number| is_prime(number))
                    .count();
                found.send(primes).expect("main listens to the end");
            })
            .expect("nobody closed the queue");
    }
    drop(found);
    let report = workers.shut_down();
    let primes: usize = counts.iter().sum();
    println!(
        "{primes} primes below {LIMIT}, in {} jobs by {WORKERS} workers",
        report.returned
    );
}

fn is_prime(number: u32) -> bool {
    let mut divisors = (2..).take_while(|at| at * at <= number);
    number > 1 && divisors.all(|at| number % at != 0)
}
