//! No job is lost and none is done twice, there are never more than there is room for, and after
//! `close` every call returns.

mod common;

use std::sync::atomic::{AtomicBool, AtomicUsize, Ordering};
use std::thread;
use std::time::Duration;

use common::in_a_minute;
use jobs::{Closed, JobQueue, TryPushError};

const THREADS: usize = 8;
const EACH: usize = 2_000;
const CAPACITY: usize = JobQueue::<usize>::CAPACITY;
/// Time for threads to begin to wait. No test needs it to hold: one that came late waits less.
const SOON: Duration = Duration::from_millis(20);

/// Counts for each job how often it was seen.
struct Seen(Vec<AtomicUsize>);

impl Seen {
    fn new(jobs: usize) -> Self {
        Self((0..jobs).map(|_| AtomicUsize::new(0)).collect())
    }

    fn mark(&self, job: usize) {
        self.0[job].fetch_add(1, Ordering::Relaxed);
    }

    fn is_once_each(&self) -> bool {
        self.0
            .iter()
            .all(|times| times.load(Ordering::Relaxed) == 1)
    }
}

#[test]
fn each_job_is_popped_once() {
    in_a_minute(|| {
        let queue = JobQueue::new();
        let seen = Seen::new(THREADS * EACH);
        thread::scope(|scope| {
            for _ in 0..THREADS {
                scope.spawn(|| queue.iter().for_each(|job| seen.mark(job)));
            }
            thread::scope(|pushers| {
                for thread in 0..THREADS {
                    let queue = &queue;
                    pushers.spawn(move || {
                        (thread * EACH..(thread + 1) * EACH)
                            .for_each(|job| queue.push(job).unwrap());
                    });
                }
            });
            queue.close();
        });
        assert!(seen.is_once_each());
        assert!(queue.is_empty());
    });
}

#[test]
fn one_threads_jobs_stay_in_order() {
    in_a_minute(|| {
        let queue = JobQueue::new();
        thread::scope(|scope| {
            let popped = scope.spawn(|| queue.iter().collect::<Vec<_>>());
            (0..EACH).for_each(|job| queue.push(job).unwrap());
            queue.close();
            assert_eq!(popped.join().unwrap(), (0..EACH).collect::<Vec<_>>());
        });
    });
}

#[test]
fn the_capacity_is_never_passed() {
    in_a_minute(|| {
        let queue = JobQueue::new();
        let over = AtomicBool::new(false);
        let done = AtomicBool::new(false);
        thread::scope(|scope| {
            // Beside this, each push asserts that there is room, under the mutex.
            scope.spawn(|| {
                while !done.load(Ordering::Relaxed) {
                    over.fetch_or(queue.len() > CAPACITY, Ordering::Relaxed);
                    thread::yield_now();
                }
            });
            let popper = scope.spawn(|| queue.iter().count());
            thread::scope(|pushers| {
                for _ in 0..THREADS {
                    pushers.spawn(|| (0..EACH).for_each(|job| queue.push(job).unwrap()));
                }
            });
            queue.close();
            assert_eq!(popper.join().unwrap(), THREADS * EACH);
            done.store(true, Ordering::Relaxed);
        });
        assert!(!over.into_inner());
    });
}

#[test]
fn a_full_queue_refuses_and_a_pop_makes_room() {
    in_a_minute(|| {
        let queue = JobQueue::new();
        (0..CAPACITY).for_each(|job| queue.try_push(job).unwrap());
        assert_eq!(queue.try_push(99), Err(TryPushError::Full(99)));
        assert_eq!(queue.len(), CAPACITY);
        assert_eq!(queue.pop(), Some(0));
        assert_eq!(queue.try_push(99), Ok(()));
        assert_eq!(queue.try_push(100), Err(TryPushError::Full(100)));
    });
}

#[test]
fn a_closed_queue_takes_nothing_and_gives_what_it_has() {
    in_a_minute(|| {
        let queue = JobQueue::new();
        queue.push("first").unwrap();
        queue.push("second").unwrap();
        queue.close();
        assert_eq!(queue.push("third"), Err(Closed("third")));
        assert_eq!(
            queue.try_push("fourth"),
            Err(TryPushError::Closed("fourth"))
        );
        assert_eq!(queue.pop(), Some("first"));
        assert_eq!(queue.pop(), Some("second"));
        assert_eq!(queue.pop(), None);
        assert_eq!(queue.pop(), None);
    });
}

#[test]
fn closing_wakes_whoever_waits_for_room() {
    in_a_minute(|| {
        let queue = JobQueue::new();
        (0..CAPACITY).for_each(|job| queue.push(job).unwrap());
        let refused = thread::scope(|scope| {
            let pushers: Vec<_> = (0..THREADS)
                .map(|thread| {
                    let queue = &queue;
                    scope.spawn(move || queue.push(CAPACITY + thread))
                })
                .collect();
            thread::sleep(SOON);
            queue.close();
            let replies = pushers.into_iter().map(|pusher| pusher.join().unwrap());
            replies.filter(Result::is_err).count()
        });
        assert_eq!(refused, THREADS);
        assert_eq!(queue.iter().count(), CAPACITY);
    });
}

#[test]
fn closing_wakes_whoever_waits_for_a_job() {
    in_a_minute(|| {
        let queue = JobQueue::<usize>::new();
        thread::scope(|scope| {
            let poppers: Vec<_> = (0..THREADS).map(|_| scope.spawn(|| queue.pop())).collect();
            thread::sleep(SOON);
            queue.close();
            assert!(poppers.into_iter().all(|it| it.join().unwrap().is_none()));
        });
    });
}

/// A job that was let in before the queue was closed is done, and one that was not comes back.
#[test]
fn closing_amid_pushes_loses_none() {
    in_a_minute(|| {
        for round in 0..200 {
            let queue = JobQueue::new();
            let seen = Seen::new(THREADS * 50);
            thread::scope(|scope| {
                for thread in 0..THREADS {
                    let (queue, seen) = (&queue, &seen);
                    scope.spawn(move || {
                        for job in thread * 50..(thread + 1) * 50 {
                            if let Err(Closed(job)) = queue.push(job) {
                                seen.mark(job);
                            }
                        }
                    });
                }
                for _ in 0..THREADS {
                    scope.spawn(|| queue.iter().for_each(|job| seen.mark(job)));
                }
                scope.spawn(|| {
                    (0..round).for_each(|_| thread::yield_now());
                    queue.close();
                });
            });
            assert!(seen.is_once_each(), "in round {round}");
        }
    });
}
