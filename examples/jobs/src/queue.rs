use std::collections::VecDeque;
use std::error::Error;
use std::fmt;

use crate::job_gate::{JobGate, Refused};

/// A queue with room for [`CAPACITY`](Self::CAPACITY) jobs, first in, first out.
///
/// Threads share it by reference. Each job that was pushed is popped once, by one thread.
#[derive(Debug)]
pub struct JobQueue<T> {
    gate: JobGate<VecDeque<T>>,
}

impl<T> JobQueue<T> {
    /// How many jobs there is room for.
    pub const CAPACITY: usize = JobGate::CAP as usize;

    /// An empty queue, open for jobs.
    #[must_use]
    pub fn new() -> Self {
        Self {
            gate: JobGate::with_data(VecDeque::with_capacity(Self::CAPACITY)),
        }
    }

    /// Puts a job at the end. Waits while there is no room.
    ///
    /// # Errors
    ///
    /// [`Closed`], with the job, where the queue is closed or is closed while the call waits.
    pub fn push(&self, job: T) -> Result<(), Closed<T>> {
        self.gate.push_with(|jobs, open| {
            if !open {
                return Err(Closed(job));
            }
            jobs.push_back(job);
            Ok(())
        })
    }

    /// Puts a job at the end, and does not wait for room.
    ///
    /// # Errors
    ///
    /// [`TryPushError`], with the job, where there is no room or the queue is closed.
    pub fn try_push(&self, job: T) -> Result<(), TryPushError<T>> {
        // Lent to the function, so that a call that is refused gives it back.
        let mut job = Some(job);
        let pushed = self.gate.try_push_with(|jobs, open| {
            if open {
                jobs.extend(job.take());
            }
        });
        match (pushed, job) {
            (_, None) => Ok(()),
            (Ok(()), Some(job)) => Err(TryPushError::Closed(job)),
            (Err(Refused), Some(job)) => Err(TryPushError::Full(job)),
        }
    }

    /// Takes the first job. Waits while there is none and the queue is open.
    ///
    /// `None` says that the queue is closed and that its last job is gone.
    pub fn pop(&self) -> Option<T> {
        self.gate.pop_with(|jobs, _found| jobs.pop_front())
    }

    /// Takes jobs, and waits for them, until the queue is closed and its last job is gone.
    pub fn iter(&self) -> impl Iterator<Item = T> + '_ {
        std::iter::from_fn(|| self.pop())
    }

    /// Takes no more jobs from now on, and wakes whoever waits in vain.
    ///
    /// The jobs that are in the queue can still be popped.
    pub fn close(&self) {
        self.gate.close();
    }

    /// How many jobs lie in the queue at this moment.
    pub fn len(&self) -> usize {
        self.gate.look_with(|jobs| jobs.len())
    }

    /// Whether no job lies in the queue at this moment.
    pub fn is_empty(&self) -> bool {
        self.len() == 0
    }
}

impl<T> Default for JobQueue<T> {
    fn default() -> Self {
        Self::new()
    }
}

/// The queue was closed. The job that it did not take.
#[derive(Clone, Copy, PartialEq, Eq)]
pub struct Closed<T>(pub T);

/// Why [`JobQueue::try_push`] did not take a job, with that job.
#[derive(Clone, Copy, PartialEq, Eq)]
pub enum TryPushError<T> {
    /// There is no room at this moment.
    Full(T),
    /// The queue was closed.
    Closed(T),
}

// A job need not be `Debug`, so that an error of any job can be unwrapped.
impl<T> fmt::Debug for Closed<T> {
    fn fmt(&self, f: &mut fmt::Formatter<'_>) -> fmt::Result {
        f.write_str("Closed(..)")
    }
}

impl<T> fmt::Display for Closed<T> {
    fn fmt(&self, f: &mut fmt::Formatter<'_>) -> fmt::Result {
        f.write_str("the queue is closed")
    }
}

impl<T> Error for Closed<T> {}

impl<T> fmt::Debug for TryPushError<T> {
    fn fmt(&self, f: &mut fmt::Formatter<'_>) -> fmt::Result {
        f.write_str(match self {
            Self::Full(_) => "Full(..)",
            Self::Closed(_) => "Closed(..)",
        })
    }
}

impl<T> fmt::Display for TryPushError<T> {
    fn fmt(&self, f: &mut fmt::Formatter<'_>) -> fmt::Result {
        f.write_str(match self {
            Self::Full(_) => "the queue is full",
            Self::Closed(_) => "the queue is closed",
        })
    }
}

impl<T> Error for TryPushError<T> {}

#[cfg(test)]
mod tests {
    use super::*;

    /// The gate counts the jobs: so many are there whenever another thread may look.
    #[test]
    fn the_gate_counts_the_jobs() {
        let queue = JobQueue::new();
        for job in 0..JobQueue::<usize>::CAPACITY {
            assert_eq!(queue.len(), job);
            assert_eq!(queue.push(job), Ok(()));
        }
        assert_eq!(queue.gate.try_push(), Err(Refused));
        assert_eq!(queue.try_push(99), Err(TryPushError::Full(99)));
        assert_eq!(queue.pop(), Some(0));
        assert_eq!(queue.try_push(99), Ok(()));
    }

    /// A function that panics leaves the gate as it was.
    #[test]
    fn a_panic_pushes_nothing() {
        use std::panic::{catch_unwind, AssertUnwindSafe};
        let queue = JobQueue::<u8>::new();
        let pushed = catch_unwind(AssertUnwindSafe(|| {
            queue.gate.push_with(|_, _| panic!("no"))
        }));
        assert!(pushed.is_err());
        assert!(queue.gate.is_poisoned());
        assert!(queue.is_empty());
        assert_eq!(queue.push(1), Ok(()));
        assert_eq!(queue.pop(), Some(1));
    }
}
