use std::fmt;
use std::panic::{catch_unwind, AssertUnwindSafe};
use std::sync::Arc;
use std::thread::{self, JoinHandle};

use crate::{Closed, JobQueue};

/// What a worker does: any closure, once.
pub type Job = Box<dyn FnOnce() + Send>;

/// Threads that do the jobs which are submitted, and a queue between.
///
/// Dropping it closes the queue and waits until every job in it is done, as
/// [`shut_down`](Self::shut_down) does.
pub struct Workers {
    queue: Arc<JobQueue<Job>>,
    threads: Vec<JoinHandle<Report>>,
}

/// How many jobs the workers did.
#[derive(Clone, Copy, Debug, Default, PartialEq, Eq)]
pub struct Report {
    /// Jobs that returned.
    pub returned: usize,
    /// Jobs that panicked. Their worker went on with the next.
    pub panicked: usize,
}

impl Workers {
    /// Starts so many threads.
    ///
    /// # Panics
    ///
    /// Where the system starts no further thread.
    #[must_use]
    pub fn start(threads: usize) -> Self {
        let queue = Arc::new(JobQueue::new());
        let threads = (0..threads)
            .map(|_| {
                let queue = Arc::clone(&queue);
                thread::spawn(move || work(&queue))
            })
            .collect();
        Self { queue, threads }
    }

    /// Hands a job to the workers. Waits while the queue has no room.
    ///
    /// # Errors
    ///
    /// [`Closed`], with the job, after [`close`](Self::close).
    pub fn submit(&self, job: impl FnOnce() + Send + 'static) -> Result<(), Closed<Job>> {
        self.queue.push(Box::new(job))
    }

    /// Takes no more jobs from now on. Those in the queue are still done.
    pub fn close(&self) {
        self.queue.close();
    }

    /// Takes no more jobs, and waits until each that was submitted is done.
    #[must_use = "it tells of jobs that panicked"]
    pub fn shut_down(mut self) -> Report {
        self.join()
    }

    fn join(&mut self) -> Report {
        self.queue.close();
        let mut sum = Report::default();
        for thread in self.threads.drain(..) {
            let part = thread.join().expect("a worker catches what its jobs throw");
            sum.returned += part.returned;
            sum.panicked += part.panicked;
        }
        sum
    }
}

impl Drop for Workers {
    fn drop(&mut self) {
        self.join();
    }
}

impl fmt::Debug for Workers {
    fn fmt(&self, f: &mut fmt::Formatter<'_>) -> fmt::Result {
        f.debug_struct("Workers")
            .field("threads", &self.threads.len())
            .field("queued", &self.queue.len())
            .finish_non_exhaustive()
    }
}

/// Does jobs until the queue is closed and its last job is gone.
fn work(queue: &JobQueue<Job>) -> Report {
    let mut report = Report::default();
    for job in queue.iter() {
        // A job shares nothing with its worker that a panic could leave half changed.
        match catch_unwind(AssertUnwindSafe(job)) {
            Ok(()) => report.returned += 1,
            Err(_) => report.panicked += 1,
        }
    }
    report
}
