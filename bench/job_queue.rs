//! A queue of jobs on a module that `expresso emit` prints, beside the same by hand: bench/queue.sh puts this file and
//! the module, `job_gate.rs`, into one folder.
//!
//! `job_queue emitted|hand PRODUCERS WORKERS JOBS` has so many threads push the jobs, and so many run them. It prints
//! how many ran.

use std::collections::VecDeque;
use std::env;
use std::process;
use std::sync::atomic::{AtomicU64, Ordering};
use std::sync::{Arc, Condvar, Mutex};
use std::thread;

mod job_gate;

use job_gate::JobGate;

/// How many jobs wait at most, as in the monitor.
const CAPACITY: usize = 64;

type Job = Box<dyn FnOnce() + Send>;

/// A queue of jobs that threads share.
trait Queue: Sync {
    /// A queue that has no jobs yet.
    fn empty() -> Self;

    /// Stores a job, once there is room.
    fn push(&self, job: Job);

    /// Takes a job, once there is one, or none where the queue is closed and empty.
    fn pop(&self) -> Option<Job>;

    /// Lets all who wait for a job find that none comes.
    fn close(&self);
}

/// As one writes it: one mutex, two condition variables, one waiter woken for each job and each slot.
#[derive(Default)]
struct Hand {
    state: Mutex<HandState>,
    not_full: Condvar,
    not_empty: Condvar,
}

#[derive(Default)]
struct HandState {
    jobs: VecDeque<Job>,
    closed: bool,
}

impl Queue for Hand {
    fn empty() -> Self {
        Self::default()
    }

    fn push(&self, job: Job) {
        let state = self.state.lock().unwrap();
        let mut state = self
            .not_full
            .wait_while(state, |state| state.jobs.len() >= CAPACITY)
            .unwrap();
        state.jobs.push_back(job);
        drop(state);
        self.not_empty.notify_one();
    }

    fn pop(&self) -> Option<Job> {
        let state = self.state.lock().unwrap();
        let mut state = self
            .not_empty
            .wait_while(state, |state| state.jobs.is_empty() && !state.closed)
            .unwrap();
        let job = state.jobs.pop_front();
        drop(state);
        self.not_full.notify_one();
        job
    }

    fn close(&self) {
        self.state.lock().unwrap().closed = true;
        self.not_empty.notify_all();
    }
}

/// The emitted gate, with the jobs for its data.
type Emitted = JobGate<VecDeque<Job>>;

impl Queue for Emitted {
    fn empty() -> Self {
        Self::with_data(VecDeque::new())
    }

    fn push(&self, job: Job) {
        self.push_with(|jobs| jobs.push_back(job));
    }

    fn pop(&self) -> Option<Job> {
        self.pop_with(|jobs, _found| jobs.pop_front())
    }

    fn close(&self) {
        JobGate::close(self);
    }
}

/// Has the producers push all jobs and the workers run them, and answers how many ran.
fn run<Q: Queue>(producers: u64, workers: u64, jobs: u64) -> u64 {
    let queue = Q::empty();
    let ran = Arc::new(AtomicU64::new(0));
    thread::scope(|scope| {
        let mut pushing = Vec::new();
        for _ in 0..producers {
            let (queue, ran) = (&queue, &ran);
            pushing.push(scope.spawn(move || {
                for _ in 0..jobs / producers {
                    let ran = Arc::clone(ran);
                    queue.push(Box::new(move || {
                        ran.fetch_add(1, Ordering::Relaxed);
                    }));
                }
            }));
        }
        for _ in 0..workers {
            let queue = &queue;
            scope.spawn(move || {
                while let Some(job) = queue.pop() {
                    job();
                }
            });
        }
        for thread in pushing {
            thread.join().unwrap();
        }
        queue.close();
    });
    ran.load(Ordering::Relaxed)
}

/// The number that a word says.
fn number(word: &str) -> u64 {
    word.parse().unwrap_or_else(|_| wrong_words())
}

fn wrong_words() -> ! {
    eprintln!("usage: job_queue emitted|hand PRODUCERS WORKERS JOBS");
    process::exit(1)
}

fn main() {
    let words: Vec<String> = env::args().collect();
    let [_, queue, producers, workers, jobs] = words.as_slice() else {
        wrong_words()
    };
    let (producers, workers, jobs) = (number(producers), number(workers), number(jobs));
    let ran = match queue.as_str() {
        "emitted" => run::<Emitted>(producers, workers, jobs),
        "hand" => run::<Hand>(producers, workers, jobs),
        _ => wrong_words(),
    };
    println!("jobs {ran}");
}
