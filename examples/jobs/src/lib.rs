//! A bounded queue of jobs that threads share, and worker threads that do them.
//!
//! Who may come in and when stands in `monitors/job_gate.mon`. Expresso makes a module of it, in
//! which nobody had to write a signal, and which keeps the jobs under its own mutex.

#![forbid(unsafe_code)]
#![warn(missing_docs)]

mod queue;
mod workers;

mod job_gate {
    include!(concat!(env!("OUT_DIR"), "/job_gate.rs"));
}

pub use queue::{Closed, JobQueue, TryPushError};
pub use workers::{Job, Report, Workers};
