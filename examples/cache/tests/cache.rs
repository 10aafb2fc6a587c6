//! Readers share, writers are alone and come first, and no write is lost.

mod common;

use std::collections::HashMap;
use std::panic::{catch_unwind, resume_unwind, AssertUnwindSafe};
use std::sync::atomic::{AtomicBool, AtomicUsize, Ordering};
use std::sync::Barrier;
use std::thread;

use cache::Cache;
use common::in_a_minute;

const THREADS: usize = 8;
const EACH: usize = 1_000;

#[test]
fn readers_share() {
    in_a_minute(|| {
        let cache = Cache::from(HashMap::from([("answer", 42)]));
        // Each reader holds the map until all of them do: this ends only where they share it.
        let all = Barrier::new(THREADS);
        thread::scope(|scope| {
            for _ in 0..THREADS {
                scope.spawn(|| {
                    let map = cache.read();
                    all.wait();
                    assert_eq!(map["answer"], 42);
                });
            }
        });
    });
}

/// Whether this thread writes in this round, as each does in a quarter of them.
fn is_writing(thread: usize, round: usize) -> bool {
    (thread + round) & 3 == 0
}

#[test]
fn a_writer_is_alone() {
    in_a_minute(|| {
        let cache = Cache::<usize, usize>::new();
        let (readers, writers) = (AtomicUsize::new(0), AtomicUsize::new(0));
        thread::scope(|scope| {
            for thread in 0..THREADS {
                let (cache, readers, writers) = (&cache, &readers, &writers);
                scope.spawn(move || {
                    for round in 0..EACH {
                        if is_writing(thread, round) {
                            let mut map = cache.write();
                            assert_eq!(writers.fetch_add(1, Ordering::SeqCst), 0);
                            assert_eq!(readers.load(Ordering::SeqCst), 0);
                            *map.entry(0).or_default() += 1;
                            writers.fetch_sub(1, Ordering::SeqCst);
                        } else {
                            let map = cache.read();
                            readers.fetch_add(1, Ordering::SeqCst);
                            assert_eq!(writers.load(Ordering::SeqCst), 0);
                            std::hint::black_box(map.get(&0));
                            readers.fetch_sub(1, Ordering::SeqCst);
                        }
                    }
                });
            }
        });
        assert_eq!(cache.get(&0), Some(THREADS * EACH / 4));
    });
}

#[test]
fn nobody_sees_half_a_write() {
    in_a_minute(|| {
        let cache = Cache::from(HashMap::from([("left", 0), ("right", 0)]));
        let done = AtomicBool::new(false);
        thread::scope(|scope| {
            for _ in 0..THREADS {
                scope.spawn(|| {
                    while !done.load(Ordering::Relaxed) {
                        let map = cache.read();
                        assert_eq!(map["left"], map["right"]);
                    }
                });
            }
            thread::scope(|writers| {
                for _ in 0..2 {
                    writers.spawn(|| {
                        for _ in 0..EACH {
                            let mut map = cache.write();
                            map.entry("left").and_modify(|it| *it += 1);
                            map.entry("right").and_modify(|it| *it += 1);
                        }
                    });
                }
            });
            done.store(true, Ordering::Relaxed);
        });
        assert_eq!(cache.into_inner()["left"], 2 * EACH);
    });
}

#[test]
fn a_writer_that_waits_comes_before_new_readers() {
    in_a_minute(|| {
        let cache = Cache::from(HashMap::from([("value", 0)]));
        thread::scope(|scope| {
            let map = cache.read();
            scope.spawn(|| cache.insert("value", 1));
            // Readers come in until the writer has queued, and then no more.
            while cache.try_read().is_some() {
                thread::yield_now();
            }
            let late = scope.spawn(|| cache.get("value"));
            assert_eq!(map["value"], 0);
            drop(map);
            assert_eq!(late.join().unwrap(), Some(1));
        });
    });
}

#[test]
fn each_result_is_made_once() {
    in_a_minute(|| {
        let cache = Cache::new();
        let made = AtomicUsize::new(0);
        thread::scope(|scope| {
            for thread in 0..THREADS {
                let (cache, made) = (&cache, &made);
                scope.spawn(move || {
                    for at in 0..EACH {
                        let number = (at + thread * 100) % EACH;
                        let square = cache.get_or_make(number, |number| {
                            made.fetch_add(1, Ordering::Relaxed);
                            number * number
                        });
                        assert_eq!(square, number * number);
                    }
                });
            }
        });
        assert_eq!(made.into_inner(), EACH);
        assert_eq!(cache.into_inner().len(), EACH);
    });
}

#[test]
fn readers_that_panic_together_let_a_writer_in() {
    in_a_minute(|| {
        let cache = Cache::from(HashMap::from([("value", 0)]));
        let all = Barrier::new(THREADS);
        thread::scope(|scope| {
            for _ in 0..THREADS {
                scope.spawn(|| {
                    let reader = catch_unwind(AssertUnwindSafe(|| {
                        let _map = cache.read();
                        all.wait();
                        resume_unwind(Box::new("a reader that fails"));
                    }));
                    assert!(reader.is_err());
                    cache.write().entry("value").and_modify(|it| *it += 1);
                });
            }
        });
        assert_eq!(cache.into_inner()["value"], THREADS);
    });
}

#[test]
fn a_panic_gives_the_map_back() {
    in_a_minute(|| {
        let cache = Cache::from(HashMap::from([("value", 0)]));
        let writer = catch_unwind(AssertUnwindSafe(|| {
            let mut map = cache.write();
            map.insert("value", 1);
            resume_unwind(Box::new("a writer that fails"));
        }));
        assert!(writer.is_err());
        let reader = catch_unwind(AssertUnwindSafe(|| {
            let _map = cache.read();
            resume_unwind(Box::new("a reader that fails"));
        }));
        assert!(reader.is_err());
        assert_eq!(cache.insert("value", 2), Some(1));
        assert_eq!(cache.get("value"), Some(2));
    });
}
