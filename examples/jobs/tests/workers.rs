//! Every job that was submitted is done once before `shut_down` returns, also after others panicked.

mod common;

use std::sync::atomic::{AtomicUsize, Ordering};
use std::sync::{Arc, Barrier};

use common::in_a_minute;
use jobs::{Report, Workers};

#[test]
fn a_shutdown_waits_for_every_job() {
    in_a_minute(|| {
        let done = Arc::new(AtomicUsize::new(0));
        let workers = Workers::start(4);
        for _ in 0..1_000 {
            let done = Arc::clone(&done);
            workers
                .submit(move || {
                    done.fetch_add(1, Ordering::Relaxed);
                })
                .unwrap();
        }
        assert_eq!(
            workers.shut_down(),
            Report {
                returned: 1_000,
                panicked: 0
            }
        );
        assert_eq!(done.load(Ordering::Relaxed), 1_000);
    });
}

#[test]
fn a_dropped_pool_does_its_jobs_too() {
    in_a_minute(|| {
        let done = Arc::new(AtomicUsize::new(0));
        {
            let workers = Workers::start(2);
            for _ in 0..100 {
                let done = Arc::clone(&done);
                workers
                    .submit(move || {
                        done.fetch_add(1, Ordering::Relaxed);
                    })
                    .unwrap();
            }
        }
        assert_eq!(done.load(Ordering::Relaxed), 100);
    });
}

#[test]
fn workers_work_side_by_side() {
    in_a_minute(|| {
        // Each job waits for the three others: this ends only where four are done at a time.
        let all = Arc::new(Barrier::new(4));
        let workers = Workers::start(4);
        for _ in 0..8 {
            let all = Arc::clone(&all);
            workers
                .submit(move || {
                    all.wait();
                })
                .unwrap();
        }
        assert_eq!(
            workers.shut_down(),
            Report {
                returned: 8,
                panicked: 0
            }
        );
    });
}

#[test]
fn a_panic_costs_one_job_and_no_worker() {
    in_a_minute(|| {
        let workers = Workers::start(1);
        workers
            .submit(|| std::panic::resume_unwind(Box::new("a job that fails")))
            .unwrap();
        workers.submit(|| {}).unwrap();
        assert_eq!(
            workers.shut_down(),
            Report {
                returned: 1,
                panicked: 1
            }
        );
    });
}

#[test]
fn a_closed_pool_gives_the_job_back() {
    in_a_minute(|| {
        let done = Arc::new(AtomicUsize::new(0));
        let workers = Workers::start(1);
        workers.close();
        let count = Arc::clone(&done);
        let refused = workers.submit(move || {
            count.fetch_add(1, Ordering::Relaxed);
        });
        assert_eq!(workers.shut_down(), Report::default());
        assert_eq!(done.load(Ordering::Relaxed), 0);
        // Whoever submitted it may do it now.
        (refused.unwrap_err().0)();
        assert_eq!(done.load(Ordering::Relaxed), 1);
    });
}
