use std::panic;
use std::sync::mpsc::{self, RecvTimeoutError};
use std::thread;
use std::time::Duration;

/// Runs a test, and panics where it hasn't ended in a minute: a call that waits for ever is a
/// failure, and no hang.
pub fn in_a_minute(test: impl FnOnce() + Send + 'static) {
    let (ended, end) = mpsc::channel::<()>();
    let thread = thread::spawn(move || {
        let _ended = ended;
        test();
    });
    // Nothing is ever sent: the other end goes when the test returns or panics.
    let end = end.recv_timeout(Duration::from_secs(60));
    assert_eq!(end, Err(RecvTimeoutError::Disconnected), "in a minute");
    if let Err(thrown) = thread.join() {
        panic::resume_unwind(thrown);
    }
}
