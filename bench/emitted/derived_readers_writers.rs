// The monitor `ReadersWriters` as a module of Rust, made by `expresso emit` 0.2.0.
// Change the monitor, and not this file. It wants Rust 1.65 and the edition 2021, or later ones.

use std::sync::{Condvar, Mutex, MutexGuard, PoisonError};
use std::time::{Duration, Instant};

/// The monitor `ReadersWriters`. Threads share it by reference. A call waits for its guard, unless it tries.
///
/// Its lock guards data `D` too, for the functions that calls are given.
/**
# Plan

```text
plan ReadersWriters
keep readers >= 0
keep readers <= 2
keep readers >= -1
keep queued >= 0
keep queued >= -1
keep queued >= -2
condition 1 signal: !writing && queued == 0 && readers < MOST
condition 2 signal: readers > 0
condition 3 broadcast: true
condition 4 signal: readers == 0 && !writing && queued > 0
condition 5 signal: writing
condition 6 signal: queued != 0
block startRead: 2 signal
block endRead: 1 signal tested, 4 signal tested
block ask: 4 signal tested, 6 signal
block startWrite: 5 signal
block endWrite: 1 broadcast tested, 4 signal tested
block cancel: 1 broadcast tested
```
*/
#[allow(dead_code, non_camel_case_types)]
#[allow(clippy::doc_markdown, clippy::upper_case_acronyms)]
pub struct ReadersWriters<D = ()> {
    inner: Mutex<Inner<D>>,
    /// For calls that wait until `!writing && queued == 0 && readers < MOST`.
    can_start_read: Condvar,
    /// For calls that wait until `readers > 0`.
    can_end_read: Condvar,
    /// For calls that wait until `readers == 0 && !writing && queued > 0`.
    can_start_write: Condvar,
    /// For calls that wait until `writing`.
    can_end_write: Condvar,
    /// For calls that wait until `queued != 0`.
    can_cancel: Condvar,
}

#[rustfmt::skip]
#[allow(dead_code, clippy::doc_markdown, clippy::style)]
impl ReadersWriters {
    /// The constant `MOST`.
    pub const MOST: i64 = 2;

    /// The monitor at its start.
    #[must_use]
    pub const fn new() -> Self {
        Self::with_data(())
    }
}

#[rustfmt::skip]
#[allow(dead_code, non_snake_case)]
#[allow(clippy::doc_markdown, clippy::style, clippy::too_many_arguments)]
impl<D> ReadersWriters<D> {
    /// The monitor at its start, with these data.
    #[must_use]
    pub const fn with_data(data: D) -> Self {
        Self {
            inner: Mutex::new(Inner {
                state: State::START,
                asleep_start_read: 0,
                asleep_end_read: 0,
                asleep_start_write: 0,
                asleep_end_write: 0,
                asleep_cancel: 0,
                data,
            }),
            can_start_read: Condvar::new(),
            can_end_read: Condvar::new(),
            can_start_write: Condvar::new(),
            can_end_write: Condvar::new(),
            can_cancel: Condvar::new(),
        }
    }

    /// The data, which nobody shares now.
    #[must_use]
    pub fn get_mut(&mut self) -> &mut D {
        &mut self.inner.get_mut().unwrap_or_else(PoisonError::into_inner).data
    }

    /// The data, without the monitor.
    #[must_use]
    pub fn into_inner(self) -> D {
        self.inner.into_inner().unwrap_or_else(PoisonError::into_inner).data
    }

    /// Whether the mutex is poisoned, as where a function panicked that a call was given.
    #[must_use]
    pub fn is_poisoned(&self) -> bool {
        self.inner.is_poisoned()
    }

    /// Waits until `!writing && queued == 0 && readers < MOST`.
    pub fn start_read(&self) {
        let mut inner = lock(&self.inner);
        while !inner.state.can_start_read() {
            inner.asleep_start_read += 1;
            inner = wait(&self.can_start_read, inner);
            inner.asleep_start_read -= 1;
        }
        inner.state.run_start_read();
        let copy = inner.copy();
        drop(inner);
        if copy.asleep_end_read > 0 {
            self.can_end_read.notify_one();
        }
    }

    /// As [`start_read`](Self::start_read), and calls `f` with the data under the same lock.
    ///
    /// Where `f` panics no field changes. `f` must not call this monitor.
    pub fn start_read_with<R>(&self, f: impl FnOnce(&mut D) -> R) -> R {
        let mut inner = lock(&self.inner);
        while !inner.state.can_start_read() {
            inner.asleep_start_read += 1;
            inner = wait(&self.can_start_read, inner);
            inner.asleep_start_read -= 1;
        }
        let hand = HandOn(&self.can_start_read);
        let mut next = inner.state;
        next.run_start_read();
        let result = f(&mut inner.data);
        std::mem::forget(hand);
        inner.state = next;
        let copy = inner.copy();
        drop(inner);
        if copy.asleep_end_read > 0 {
            self.can_end_read.notify_one();
        }
        result
    }

    /// As [`start_read`](Self::start_read), but does not wait until `!writing && queued == 0 && readers < MOST`.
    ///
    /// # Errors
    ///
    /// [`Refused`] where `!writing && queued == 0 && readers < MOST` is false. Then nothing changes.
    pub fn try_start_read(&self) -> Result<(), Refused> {
        let mut inner = lock(&self.inner);
        if !inner.state.can_start_read() {
            return Err(Refused);
        }
        inner.state.run_start_read();
        let copy = inner.copy();
        drop(inner);
        if copy.asleep_end_read > 0 {
            self.can_end_read.notify_one();
        }
        Ok(())
    }

    /// As [`try_start_read`](Self::try_start_read), and calls `f` with the data under the same lock.
    ///
    /// Where `f` panics no field changes. `f` must not call this monitor.
    ///
    /// # Errors
    ///
    /// [`Refused`] where `!writing && queued == 0 && readers < MOST` is false. Then nothing changes.
    pub fn try_start_read_with<R>(&self, f: impl FnOnce(&mut D) -> R) -> Result<R, Refused> {
        let mut inner = lock(&self.inner);
        if !inner.state.can_start_read() {
            return Err(Refused);
        }
        let hand = HandOn(&self.can_start_read);
        let mut next = inner.state;
        next.run_start_read();
        let result = f(&mut inner.data);
        std::mem::forget(hand);
        inner.state = next;
        let copy = inner.copy();
        drop(inner);
        if copy.asleep_end_read > 0 {
            self.can_end_read.notify_one();
        }
        Ok(result)
    }

    /// As [`start_read`](Self::start_read), but waits for `!writing && queued == 0 && readers < MOST` no longer than until `end`.
    ///
    /// # Errors
    ///
    /// [`Refused`] where its time is over and `!writing && queued == 0 && readers < MOST` is false. Then nothing changes.
    pub fn start_read_until(&self, end: Instant) -> Result<(), Refused> {
        let mut inner = lock(&self.inner);
        while !inner.state.can_start_read() {
            let Some(left) = time_left(end) else {
                return Err(Refused);
            };
            inner.asleep_start_read += 1;
            inner = wait_for(&self.can_start_read, inner, left);
            inner.asleep_start_read -= 1;
        }
        inner.state.run_start_read();
        let copy = inner.copy();
        drop(inner);
        if copy.asleep_end_read > 0 {
            self.can_end_read.notify_one();
        }
        Ok(())
    }

    /// As [`start_read_until`](Self::start_read_until), and calls `f` with the data under the same lock.
    ///
    /// Where `f` panics no field changes. `f` must not call this monitor.
    ///
    /// # Errors
    ///
    /// [`Refused`] where its time is over and `!writing && queued == 0 && readers < MOST` is false. Then nothing changes.
    pub fn start_read_until_with<R>(&self, end: Instant, f: impl FnOnce(&mut D) -> R) -> Result<R, Refused> {
        let mut inner = lock(&self.inner);
        while !inner.state.can_start_read() {
            let Some(left) = time_left(end) else {
                return Err(Refused);
            };
            inner.asleep_start_read += 1;
            inner = wait_for(&self.can_start_read, inner, left);
            inner.asleep_start_read -= 1;
        }
        let hand = HandOn(&self.can_start_read);
        let mut next = inner.state;
        next.run_start_read();
        let result = f(&mut inner.data);
        std::mem::forget(hand);
        inner.state = next;
        let copy = inner.copy();
        drop(inner);
        if copy.asleep_end_read > 0 {
            self.can_end_read.notify_one();
        }
        Ok(result)
    }

    /// As [`start_read`](Self::start_read), but waits for `!writing && queued == 0 && readers < MOST` no longer than `time`.
    ///
    /// # Errors
    ///
    /// [`Refused`] where its time is over and `!writing && queued == 0 && readers < MOST` is false. Then nothing changes.
    pub fn start_read_for(&self, time: Duration) -> Result<(), Refused> {
        let Some(end) = Instant::now().checked_add(time) else {
            self.start_read();
            return Ok(());
        };
        self.start_read_until(end)
    }

    /// As [`start_read_for`](Self::start_read_for), and calls `f` with the data under the same lock.
    ///
    /// Where `f` panics no field changes. `f` must not call this monitor.
    ///
    /// # Errors
    ///
    /// [`Refused`] where its time is over and `!writing && queued == 0 && readers < MOST` is false. Then nothing changes.
    pub fn start_read_for_with<R>(&self, time: Duration, f: impl FnOnce(&mut D) -> R) -> Result<R, Refused> {
        let Some(end) = Instant::now().checked_add(time) else {
            return Ok(self.start_read_with(f));
        };
        self.start_read_until_with(end, f)
    }

    /// Waits until `readers > 0`.
    pub fn end_read(&self) {
        let mut inner = lock(&self.inner);
        while !inner.state.can_end_read() {
            inner.asleep_end_read += 1;
            inner = wait(&self.can_end_read, inner);
            inner.asleep_end_read -= 1;
        }
        inner.state.run_end_read();
        let copy = inner.copy();
        drop(inner);
        if copy.asleep_start_read > 0 && copy.state.can_start_read() {
            self.can_start_read.notify_one();
        }
        if copy.asleep_start_write > 0 && copy.state.can_start_write() {
            self.can_start_write.notify_one();
        }
    }

    /// As [`end_read`](Self::end_read), and calls `f` with the data under the same lock.
    ///
    /// Where `f` panics no field changes. `f` must not call this monitor.
    pub fn end_read_with<R>(&self, f: impl FnOnce(&mut D) -> R) -> R {
        let mut inner = lock(&self.inner);
        while !inner.state.can_end_read() {
            inner.asleep_end_read += 1;
            inner = wait(&self.can_end_read, inner);
            inner.asleep_end_read -= 1;
        }
        let hand = HandOn(&self.can_end_read);
        let mut next = inner.state;
        next.run_end_read();
        let result = f(&mut inner.data);
        std::mem::forget(hand);
        inner.state = next;
        let copy = inner.copy();
        drop(inner);
        if copy.asleep_start_read > 0 && copy.state.can_start_read() {
            self.can_start_read.notify_one();
        }
        if copy.asleep_start_write > 0 && copy.state.can_start_write() {
            self.can_start_write.notify_one();
        }
        result
    }

    /// As [`end_read`](Self::end_read), but does not wait until `readers > 0`.
    ///
    /// # Errors
    ///
    /// [`Refused`] where `readers > 0` is false. Then nothing changes.
    pub fn try_end_read(&self) -> Result<(), Refused> {
        let mut inner = lock(&self.inner);
        if !inner.state.can_end_read() {
            return Err(Refused);
        }
        inner.state.run_end_read();
        let copy = inner.copy();
        drop(inner);
        if copy.asleep_start_read > 0 && copy.state.can_start_read() {
            self.can_start_read.notify_one();
        }
        if copy.asleep_start_write > 0 && copy.state.can_start_write() {
            self.can_start_write.notify_one();
        }
        Ok(())
    }

    /// As [`try_end_read`](Self::try_end_read), and calls `f` with the data under the same lock.
    ///
    /// Where `f` panics no field changes. `f` must not call this monitor.
    ///
    /// # Errors
    ///
    /// [`Refused`] where `readers > 0` is false. Then nothing changes.
    pub fn try_end_read_with<R>(&self, f: impl FnOnce(&mut D) -> R) -> Result<R, Refused> {
        let mut inner = lock(&self.inner);
        if !inner.state.can_end_read() {
            return Err(Refused);
        }
        let hand = HandOn(&self.can_end_read);
        let mut next = inner.state;
        next.run_end_read();
        let result = f(&mut inner.data);
        std::mem::forget(hand);
        inner.state = next;
        let copy = inner.copy();
        drop(inner);
        if copy.asleep_start_read > 0 && copy.state.can_start_read() {
            self.can_start_read.notify_one();
        }
        if copy.asleep_start_write > 0 && copy.state.can_start_write() {
            self.can_start_write.notify_one();
        }
        Ok(result)
    }

    /// As [`end_read`](Self::end_read), but waits for `readers > 0` no longer than until `end`.
    ///
    /// # Errors
    ///
    /// [`Refused`] where its time is over and `readers > 0` is false. Then nothing changes.
    pub fn end_read_until(&self, end: Instant) -> Result<(), Refused> {
        let mut inner = lock(&self.inner);
        while !inner.state.can_end_read() {
            let Some(left) = time_left(end) else {
                return Err(Refused);
            };
            inner.asleep_end_read += 1;
            inner = wait_for(&self.can_end_read, inner, left);
            inner.asleep_end_read -= 1;
        }
        inner.state.run_end_read();
        let copy = inner.copy();
        drop(inner);
        if copy.asleep_start_read > 0 && copy.state.can_start_read() {
            self.can_start_read.notify_one();
        }
        if copy.asleep_start_write > 0 && copy.state.can_start_write() {
            self.can_start_write.notify_one();
        }
        Ok(())
    }

    /// As [`end_read_until`](Self::end_read_until), and calls `f` with the data under the same lock.
    ///
    /// Where `f` panics no field changes. `f` must not call this monitor.
    ///
    /// # Errors
    ///
    /// [`Refused`] where its time is over and `readers > 0` is false. Then nothing changes.
    pub fn end_read_until_with<R>(&self, end: Instant, f: impl FnOnce(&mut D) -> R) -> Result<R, Refused> {
        let mut inner = lock(&self.inner);
        while !inner.state.can_end_read() {
            let Some(left) = time_left(end) else {
                return Err(Refused);
            };
            inner.asleep_end_read += 1;
            inner = wait_for(&self.can_end_read, inner, left);
            inner.asleep_end_read -= 1;
        }
        let hand = HandOn(&self.can_end_read);
        let mut next = inner.state;
        next.run_end_read();
        let result = f(&mut inner.data);
        std::mem::forget(hand);
        inner.state = next;
        let copy = inner.copy();
        drop(inner);
        if copy.asleep_start_read > 0 && copy.state.can_start_read() {
            self.can_start_read.notify_one();
        }
        if copy.asleep_start_write > 0 && copy.state.can_start_write() {
            self.can_start_write.notify_one();
        }
        Ok(result)
    }

    /// As [`end_read`](Self::end_read), but waits for `readers > 0` no longer than `time`.
    ///
    /// # Errors
    ///
    /// [`Refused`] where its time is over and `readers > 0` is false. Then nothing changes.
    pub fn end_read_for(&self, time: Duration) -> Result<(), Refused> {
        let Some(end) = Instant::now().checked_add(time) else {
            self.end_read();
            return Ok(());
        };
        self.end_read_until(end)
    }

    /// As [`end_read_for`](Self::end_read_for), and calls `f` with the data under the same lock.
    ///
    /// Where `f` panics no field changes. `f` must not call this monitor.
    ///
    /// # Errors
    ///
    /// [`Refused`] where its time is over and `readers > 0` is false. Then nothing changes.
    pub fn end_read_for_with<R>(&self, time: Duration, f: impl FnOnce(&mut D) -> R) -> Result<R, Refused> {
        let Some(end) = Instant::now().checked_add(time) else {
            return Ok(self.end_read_with(f));
        };
        self.end_read_until_with(end, f)
    }

    /// Does not wait.
    ///
    /// # Errors
    ///
    /// [`Overflow`] where a number would leave 64 bits. Then nothing changes.
    pub fn ask(&self) -> Result<(), Overflow> {
        let mut inner = lock(&self.inner);
        inner.state.run_ask()?;
        let copy = inner.copy();
        drop(inner);
        if copy.asleep_start_write > 0 && copy.state.can_start_write() {
            self.can_start_write.notify_one();
        }
        if copy.asleep_cancel > 0 {
            self.can_cancel.notify_one();
        }
        Ok(())
    }

    /// As [`ask`](Self::ask), and calls `f` with the data under the same lock.
    ///
    /// Where `f` panics no field changes. `f` must not call this monitor.
    ///
    /// # Errors
    ///
    /// [`Overflow`] where a number would leave 64 bits. Then nothing changes.
    pub fn ask_with<R>(&self, f: impl FnOnce(&mut D) -> R) -> Result<R, Overflow> {
        let mut inner = lock(&self.inner);
        let mut next = inner.state;
        next.run_ask()?;
        let result = f(&mut inner.data);
        inner.state = next;
        let copy = inner.copy();
        drop(inner);
        if copy.asleep_start_write > 0 && copy.state.can_start_write() {
            self.can_start_write.notify_one();
        }
        if copy.asleep_cancel > 0 {
            self.can_cancel.notify_one();
        }
        Ok(result)
    }

    /// Waits until `readers == 0 && !writing && queued > 0`.
    pub fn start_write(&self) {
        let mut inner = lock(&self.inner);
        while !inner.state.can_start_write() {
            inner.asleep_start_write += 1;
            inner = wait(&self.can_start_write, inner);
            inner.asleep_start_write -= 1;
        }
        inner.state.run_start_write();
        let copy = inner.copy();
        drop(inner);
        if copy.asleep_end_write > 0 {
            self.can_end_write.notify_one();
        }
    }

    /// As [`start_write`](Self::start_write), and calls `f` with the data under the same lock.
    ///
    /// Where `f` panics no field changes. `f` must not call this monitor.
    pub fn start_write_with<R>(&self, f: impl FnOnce(&mut D) -> R) -> R {
        let mut inner = lock(&self.inner);
        while !inner.state.can_start_write() {
            inner.asleep_start_write += 1;
            inner = wait(&self.can_start_write, inner);
            inner.asleep_start_write -= 1;
        }
        let hand = HandOn(&self.can_start_write);
        let mut next = inner.state;
        next.run_start_write();
        let result = f(&mut inner.data);
        std::mem::forget(hand);
        inner.state = next;
        let copy = inner.copy();
        drop(inner);
        if copy.asleep_end_write > 0 {
            self.can_end_write.notify_one();
        }
        result
    }

    /// As [`start_write`](Self::start_write), but does not wait until `readers == 0 && !writing && queued > 0`.
    ///
    /// # Errors
    ///
    /// [`Refused`] where `readers == 0 && !writing && queued > 0` is false. Then nothing changes.
    pub fn try_start_write(&self) -> Result<(), Refused> {
        let mut inner = lock(&self.inner);
        if !inner.state.can_start_write() {
            return Err(Refused);
        }
        inner.state.run_start_write();
        let copy = inner.copy();
        drop(inner);
        if copy.asleep_end_write > 0 {
            self.can_end_write.notify_one();
        }
        Ok(())
    }

    /// As [`try_start_write`](Self::try_start_write), and calls `f` with the data under the same lock.
    ///
    /// Where `f` panics no field changes. `f` must not call this monitor.
    ///
    /// # Errors
    ///
    /// [`Refused`] where `readers == 0 && !writing && queued > 0` is false. Then nothing changes.
    pub fn try_start_write_with<R>(&self, f: impl FnOnce(&mut D) -> R) -> Result<R, Refused> {
        let mut inner = lock(&self.inner);
        if !inner.state.can_start_write() {
            return Err(Refused);
        }
        let hand = HandOn(&self.can_start_write);
        let mut next = inner.state;
        next.run_start_write();
        let result = f(&mut inner.data);
        std::mem::forget(hand);
        inner.state = next;
        let copy = inner.copy();
        drop(inner);
        if copy.asleep_end_write > 0 {
            self.can_end_write.notify_one();
        }
        Ok(result)
    }

    /// As [`start_write`](Self::start_write), but waits for `readers == 0 && !writing && queued > 0` no longer than until `end`.
    ///
    /// # Errors
    ///
    /// [`Refused`] where its time is over and `readers == 0 && !writing && queued > 0` is false. Then nothing changes.
    pub fn start_write_until(&self, end: Instant) -> Result<(), Refused> {
        let mut inner = lock(&self.inner);
        while !inner.state.can_start_write() {
            let Some(left) = time_left(end) else {
                return Err(Refused);
            };
            inner.asleep_start_write += 1;
            inner = wait_for(&self.can_start_write, inner, left);
            inner.asleep_start_write -= 1;
        }
        inner.state.run_start_write();
        let copy = inner.copy();
        drop(inner);
        if copy.asleep_end_write > 0 {
            self.can_end_write.notify_one();
        }
        Ok(())
    }

    /// As [`start_write_until`](Self::start_write_until), and calls `f` with the data under the same lock.
    ///
    /// Where `f` panics no field changes. `f` must not call this monitor.
    ///
    /// # Errors
    ///
    /// [`Refused`] where its time is over and `readers == 0 && !writing && queued > 0` is false. Then nothing changes.
    pub fn start_write_until_with<R>(&self, end: Instant, f: impl FnOnce(&mut D) -> R) -> Result<R, Refused> {
        let mut inner = lock(&self.inner);
        while !inner.state.can_start_write() {
            let Some(left) = time_left(end) else {
                return Err(Refused);
            };
            inner.asleep_start_write += 1;
            inner = wait_for(&self.can_start_write, inner, left);
            inner.asleep_start_write -= 1;
        }
        let hand = HandOn(&self.can_start_write);
        let mut next = inner.state;
        next.run_start_write();
        let result = f(&mut inner.data);
        std::mem::forget(hand);
        inner.state = next;
        let copy = inner.copy();
        drop(inner);
        if copy.asleep_end_write > 0 {
            self.can_end_write.notify_one();
        }
        Ok(result)
    }

    /// As [`start_write`](Self::start_write), but waits for `readers == 0 && !writing && queued > 0` no longer than `time`.
    ///
    /// # Errors
    ///
    /// [`Refused`] where its time is over and `readers == 0 && !writing && queued > 0` is false. Then nothing changes.
    pub fn start_write_for(&self, time: Duration) -> Result<(), Refused> {
        let Some(end) = Instant::now().checked_add(time) else {
            self.start_write();
            return Ok(());
        };
        self.start_write_until(end)
    }

    /// As [`start_write_for`](Self::start_write_for), and calls `f` with the data under the same lock.
    ///
    /// Where `f` panics no field changes. `f` must not call this monitor.
    ///
    /// # Errors
    ///
    /// [`Refused`] where its time is over and `readers == 0 && !writing && queued > 0` is false. Then nothing changes.
    pub fn start_write_for_with<R>(&self, time: Duration, f: impl FnOnce(&mut D) -> R) -> Result<R, Refused> {
        let Some(end) = Instant::now().checked_add(time) else {
            return Ok(self.start_write_with(f));
        };
        self.start_write_until_with(end, f)
    }

    /// Waits until `writing`.
    pub fn end_write(&self) {
        let mut inner = lock(&self.inner);
        while !inner.state.can_end_write() {
            inner.asleep_end_write += 1;
            inner = wait(&self.can_end_write, inner);
            inner.asleep_end_write -= 1;
        }
        inner.state.run_end_write();
        let copy = inner.copy();
        drop(inner);
        if copy.asleep_start_read > 0 && copy.state.can_start_read() {
            self.can_start_read.notify_all();
        }
        if copy.asleep_start_write > 0 && copy.state.can_start_write() {
            self.can_start_write.notify_one();
        }
    }

    /// As [`end_write`](Self::end_write), and calls `f` with the data under the same lock.
    ///
    /// Where `f` panics no field changes. `f` must not call this monitor.
    pub fn end_write_with<R>(&self, f: impl FnOnce(&mut D) -> R) -> R {
        let mut inner = lock(&self.inner);
        while !inner.state.can_end_write() {
            inner.asleep_end_write += 1;
            inner = wait(&self.can_end_write, inner);
            inner.asleep_end_write -= 1;
        }
        let hand = HandOn(&self.can_end_write);
        let mut next = inner.state;
        next.run_end_write();
        let result = f(&mut inner.data);
        std::mem::forget(hand);
        inner.state = next;
        let copy = inner.copy();
        drop(inner);
        if copy.asleep_start_read > 0 && copy.state.can_start_read() {
            self.can_start_read.notify_all();
        }
        if copy.asleep_start_write > 0 && copy.state.can_start_write() {
            self.can_start_write.notify_one();
        }
        result
    }

    /// As [`end_write`](Self::end_write), but does not wait until `writing`.
    ///
    /// # Errors
    ///
    /// [`Refused`] where `writing` is false. Then nothing changes.
    pub fn try_end_write(&self) -> Result<(), Refused> {
        let mut inner = lock(&self.inner);
        if !inner.state.can_end_write() {
            return Err(Refused);
        }
        inner.state.run_end_write();
        let copy = inner.copy();
        drop(inner);
        if copy.asleep_start_read > 0 && copy.state.can_start_read() {
            self.can_start_read.notify_all();
        }
        if copy.asleep_start_write > 0 && copy.state.can_start_write() {
            self.can_start_write.notify_one();
        }
        Ok(())
    }

    /// As [`try_end_write`](Self::try_end_write), and calls `f` with the data under the same lock.
    ///
    /// Where `f` panics no field changes. `f` must not call this monitor.
    ///
    /// # Errors
    ///
    /// [`Refused`] where `writing` is false. Then nothing changes.
    pub fn try_end_write_with<R>(&self, f: impl FnOnce(&mut D) -> R) -> Result<R, Refused> {
        let mut inner = lock(&self.inner);
        if !inner.state.can_end_write() {
            return Err(Refused);
        }
        let hand = HandOn(&self.can_end_write);
        let mut next = inner.state;
        next.run_end_write();
        let result = f(&mut inner.data);
        std::mem::forget(hand);
        inner.state = next;
        let copy = inner.copy();
        drop(inner);
        if copy.asleep_start_read > 0 && copy.state.can_start_read() {
            self.can_start_read.notify_all();
        }
        if copy.asleep_start_write > 0 && copy.state.can_start_write() {
            self.can_start_write.notify_one();
        }
        Ok(result)
    }

    /// As [`end_write`](Self::end_write), but waits for `writing` no longer than until `end`.
    ///
    /// # Errors
    ///
    /// [`Refused`] where its time is over and `writing` is false. Then nothing changes.
    pub fn end_write_until(&self, end: Instant) -> Result<(), Refused> {
        let mut inner = lock(&self.inner);
        while !inner.state.can_end_write() {
            let Some(left) = time_left(end) else {
                return Err(Refused);
            };
            inner.asleep_end_write += 1;
            inner = wait_for(&self.can_end_write, inner, left);
            inner.asleep_end_write -= 1;
        }
        inner.state.run_end_write();
        let copy = inner.copy();
        drop(inner);
        if copy.asleep_start_read > 0 && copy.state.can_start_read() {
            self.can_start_read.notify_all();
        }
        if copy.asleep_start_write > 0 && copy.state.can_start_write() {
            self.can_start_write.notify_one();
        }
        Ok(())
    }

    /// As [`end_write_until`](Self::end_write_until), and calls `f` with the data under the same lock.
    ///
    /// Where `f` panics no field changes. `f` must not call this monitor.
    ///
    /// # Errors
    ///
    /// [`Refused`] where its time is over and `writing` is false. Then nothing changes.
    pub fn end_write_until_with<R>(&self, end: Instant, f: impl FnOnce(&mut D) -> R) -> Result<R, Refused> {
        let mut inner = lock(&self.inner);
        while !inner.state.can_end_write() {
            let Some(left) = time_left(end) else {
                return Err(Refused);
            };
            inner.asleep_end_write += 1;
            inner = wait_for(&self.can_end_write, inner, left);
            inner.asleep_end_write -= 1;
        }
        let hand = HandOn(&self.can_end_write);
        let mut next = inner.state;
        next.run_end_write();
        let result = f(&mut inner.data);
        std::mem::forget(hand);
        inner.state = next;
        let copy = inner.copy();
        drop(inner);
        if copy.asleep_start_read > 0 && copy.state.can_start_read() {
            self.can_start_read.notify_all();
        }
        if copy.asleep_start_write > 0 && copy.state.can_start_write() {
            self.can_start_write.notify_one();
        }
        Ok(result)
    }

    /// As [`end_write`](Self::end_write), but waits for `writing` no longer than `time`.
    ///
    /// # Errors
    ///
    /// [`Refused`] where its time is over and `writing` is false. Then nothing changes.
    pub fn end_write_for(&self, time: Duration) -> Result<(), Refused> {
        let Some(end) = Instant::now().checked_add(time) else {
            self.end_write();
            return Ok(());
        };
        self.end_write_until(end)
    }

    /// As [`end_write_for`](Self::end_write_for), and calls `f` with the data under the same lock.
    ///
    /// Where `f` panics no field changes. `f` must not call this monitor.
    ///
    /// # Errors
    ///
    /// [`Refused`] where its time is over and `writing` is false. Then nothing changes.
    pub fn end_write_for_with<R>(&self, time: Duration, f: impl FnOnce(&mut D) -> R) -> Result<R, Refused> {
        let Some(end) = Instant::now().checked_add(time) else {
            return Ok(self.end_write_with(f));
        };
        self.end_write_until_with(end, f)
    }

    /// Waits until `queued != 0`.
    pub fn cancel(&self) {
        let mut inner = lock(&self.inner);
        while !inner.state.can_cancel() {
            inner.asleep_cancel += 1;
            inner = wait(&self.can_cancel, inner);
            inner.asleep_cancel -= 1;
        }
        inner.state.run_cancel();
        let copy = inner.copy();
        drop(inner);
        if copy.asleep_start_read > 0 && copy.state.can_start_read() {
            self.can_start_read.notify_all();
        }
    }

    /// As [`cancel`](Self::cancel), and calls `f` with the data under the same lock.
    ///
    /// Where `f` panics no field changes. `f` must not call this monitor.
    pub fn cancel_with<R>(&self, f: impl FnOnce(&mut D) -> R) -> R {
        let mut inner = lock(&self.inner);
        while !inner.state.can_cancel() {
            inner.asleep_cancel += 1;
            inner = wait(&self.can_cancel, inner);
            inner.asleep_cancel -= 1;
        }
        let hand = HandOn(&self.can_cancel);
        let mut next = inner.state;
        next.run_cancel();
        let result = f(&mut inner.data);
        std::mem::forget(hand);
        inner.state = next;
        let copy = inner.copy();
        drop(inner);
        if copy.asleep_start_read > 0 && copy.state.can_start_read() {
            self.can_start_read.notify_all();
        }
        result
    }

    /// As [`cancel`](Self::cancel), but does not wait until `queued != 0`.
    ///
    /// # Errors
    ///
    /// [`Refused`] where `queued != 0` is false. Then nothing changes.
    pub fn try_cancel(&self) -> Result<(), Refused> {
        let mut inner = lock(&self.inner);
        if !inner.state.can_cancel() {
            return Err(Refused);
        }
        inner.state.run_cancel();
        let copy = inner.copy();
        drop(inner);
        if copy.asleep_start_read > 0 && copy.state.can_start_read() {
            self.can_start_read.notify_all();
        }
        Ok(())
    }

    /// As [`try_cancel`](Self::try_cancel), and calls `f` with the data under the same lock.
    ///
    /// Where `f` panics no field changes. `f` must not call this monitor.
    ///
    /// # Errors
    ///
    /// [`Refused`] where `queued != 0` is false. Then nothing changes.
    pub fn try_cancel_with<R>(&self, f: impl FnOnce(&mut D) -> R) -> Result<R, Refused> {
        let mut inner = lock(&self.inner);
        if !inner.state.can_cancel() {
            return Err(Refused);
        }
        let hand = HandOn(&self.can_cancel);
        let mut next = inner.state;
        next.run_cancel();
        let result = f(&mut inner.data);
        std::mem::forget(hand);
        inner.state = next;
        let copy = inner.copy();
        drop(inner);
        if copy.asleep_start_read > 0 && copy.state.can_start_read() {
            self.can_start_read.notify_all();
        }
        Ok(result)
    }

    /// As [`cancel`](Self::cancel), but waits for `queued != 0` no longer than until `end`.
    ///
    /// # Errors
    ///
    /// [`Refused`] where its time is over and `queued != 0` is false. Then nothing changes.
    pub fn cancel_until(&self, end: Instant) -> Result<(), Refused> {
        let mut inner = lock(&self.inner);
        while !inner.state.can_cancel() {
            let Some(left) = time_left(end) else {
                return Err(Refused);
            };
            inner.asleep_cancel += 1;
            inner = wait_for(&self.can_cancel, inner, left);
            inner.asleep_cancel -= 1;
        }
        inner.state.run_cancel();
        let copy = inner.copy();
        drop(inner);
        if copy.asleep_start_read > 0 && copy.state.can_start_read() {
            self.can_start_read.notify_all();
        }
        Ok(())
    }

    /// As [`cancel_until`](Self::cancel_until), and calls `f` with the data under the same lock.
    ///
    /// Where `f` panics no field changes. `f` must not call this monitor.
    ///
    /// # Errors
    ///
    /// [`Refused`] where its time is over and `queued != 0` is false. Then nothing changes.
    pub fn cancel_until_with<R>(&self, end: Instant, f: impl FnOnce(&mut D) -> R) -> Result<R, Refused> {
        let mut inner = lock(&self.inner);
        while !inner.state.can_cancel() {
            let Some(left) = time_left(end) else {
                return Err(Refused);
            };
            inner.asleep_cancel += 1;
            inner = wait_for(&self.can_cancel, inner, left);
            inner.asleep_cancel -= 1;
        }
        let hand = HandOn(&self.can_cancel);
        let mut next = inner.state;
        next.run_cancel();
        let result = f(&mut inner.data);
        std::mem::forget(hand);
        inner.state = next;
        let copy = inner.copy();
        drop(inner);
        if copy.asleep_start_read > 0 && copy.state.can_start_read() {
            self.can_start_read.notify_all();
        }
        Ok(result)
    }

    /// As [`cancel`](Self::cancel), but waits for `queued != 0` no longer than `time`.
    ///
    /// # Errors
    ///
    /// [`Refused`] where its time is over and `queued != 0` is false. Then nothing changes.
    pub fn cancel_for(&self, time: Duration) -> Result<(), Refused> {
        let Some(end) = Instant::now().checked_add(time) else {
            self.cancel();
            return Ok(());
        };
        self.cancel_until(end)
    }

    /// As [`cancel_for`](Self::cancel_for), and calls `f` with the data under the same lock.
    ///
    /// Where `f` panics no field changes. `f` must not call this monitor.
    ///
    /// # Errors
    ///
    /// [`Refused`] where its time is over and `queued != 0` is false. Then nothing changes.
    pub fn cancel_for_with<R>(&self, time: Duration, f: impl FnOnce(&mut D) -> R) -> Result<R, Refused> {
        let Some(end) = Instant::now().checked_add(time) else {
            return Ok(self.cancel_with(f));
        };
        self.cancel_until_with(end, f)
    }
}

impl Default for ReadersWriters {
    fn default() -> Self {
        Self::new()
    }
}

impl<D> std::fmt::Debug for ReadersWriters<D> {
    fn fmt(&self, f: &mut std::fmt::Formatter<'_>) -> std::fmt::Result {
        let state = match self.inner.try_lock() {
            Ok(inner) => Some(inner.state),
            Err(std::sync::TryLockError::Poisoned(inner)) => Some(inner.into_inner().state),
            Err(std::sync::TryLockError::WouldBlock) => None,
        };
        let mut text = f.debug_struct("ReadersWriters");
        match state {
            Some(state) => text.field("state", &state),
            None => text.field("state", &format_args!("<locked>")),
        };
        text.finish_non_exhaustive()
    }
}

/// What the mutex guards: the fields, how many calls sleep on each condition, and the data.
#[allow(dead_code)]
struct Inner<D = ()> {
    state: State,
    asleep_start_read: usize,
    asleep_end_read: usize,
    asleep_start_write: usize,
    asleep_end_write: usize,
    asleep_cancel: usize,
    data: D,
}

impl<D> Inner<D> {
    /// All but the data.
    #[allow(dead_code)]
    fn copy(&self) -> Inner {
        Inner {
            state: self.state,
            asleep_start_read: self.asleep_start_read,
            asleep_end_read: self.asleep_end_read,
            asleep_start_write: self.asleep_start_write,
            asleep_end_write: self.asleep_end_write,
            asleep_cancel: self.asleep_cancel,
            data: (),
        }
    }
}

/// The fields of the monitor.
#[derive(Clone, Copy, Debug)]
#[allow(dead_code)]
struct State {
    readers: i64,
    queued: i64,
    writing: bool,
}

// The guards and bodies, with expressions as the monitor has them.
#[rustfmt::skip]
#[allow(unused, unused_comparisons, clippy::all, clippy::pedantic)]
impl State {
    const START: Self = Self {
        readers: 0,
        queued: 0,
        writing: false,
    };

    fn can_start_read(&self) -> bool {
        !self.writing && self.queued == 0 && self.readers < ReadersWriters::MOST
    }

    fn run_start_read(&mut self) {
        self.readers = self.readers + 1;
    }

    fn can_end_read(&self) -> bool {
        self.readers > 0
    }

    fn run_end_read(&mut self) {
        self.readers = self.readers - 1;
    }

    fn run_ask(&mut self) -> Result<(), Overflow> {
        self.queued = narrow(i128::from(self.queued) + 1)?;
        Ok(())
    }

    fn can_start_write(&self) -> bool {
        self.readers == 0 && !self.writing && self.queued > 0
    }

    fn run_start_write(&mut self) {
        self.writing = true;
        self.queued = self.queued - 1;
    }

    fn can_end_write(&self) -> bool {
        self.writing
    }

    fn run_end_write(&mut self) {
        self.writing = false;
    }

    fn can_cancel(&self) -> bool {
        self.queued != 0
    }

    fn run_cancel(&mut self) {
        self.queued = self.queued - 1;
    }
}

/// Locks the monitor, poisoned or not: where a function panicked its block changed no field.
fn lock<D>(inner: &Mutex<Inner<D>>) -> MutexGuard<'_, Inner<D>> {
    inner.lock().unwrap_or_else(PoisonError::into_inner)
}

/// Gives the lock back and waits on the condition, in one step, and takes the lock again.
fn wait<'a, D>(condition: &Condvar, inner: MutexGuard<'a, Inner<D>>) -> MutexGuard<'a, Inner<D>> {
    condition
        .wait(inner)
        .unwrap_or_else(PoisonError::into_inner)
}

/// Wakes one call that waits on the condition, where a block ends that changed nothing.
#[allow(dead_code)]
struct HandOn<'a>(&'a Condvar);

impl Drop for HandOn<'_> {
    fn drop(&mut self) {
        self.0.notify_one();
    }
}

/// As `wait`, but no longer than this.
fn wait_for<'a, D>(
    condition: &Condvar,
    inner: MutexGuard<'a, Inner<D>>,
    left: Duration,
) -> MutexGuard<'a, Inner<D>> {
    condition
        .wait_timeout(inner, left)
        .unwrap_or_else(PoisonError::into_inner)
        .0
}

/// How long it is until then, or `None` where it has come.
fn time_left(end: Instant) -> Option<Duration> {
    end.checked_duration_since(Instant::now())
        .filter(|left| !left.is_zero())
}

/// A number would have left 64 bits.
#[derive(Clone, Copy, Debug, PartialEq, Eq)]
pub struct Overflow;

impl std::fmt::Display for Overflow {
    fn fmt(&self, f: &mut std::fmt::Formatter<'_>) -> std::fmt::Result {
        f.write_str("a number would leave 64 bits")
    }
}

impl std::error::Error for Overflow {}

/// The number, where it has 64 bits.
fn narrow(number: i128) -> Result<i64, Overflow> {
    i64::try_from(number).map_err(|_| Overflow)
}

/// The guard was false, and the call did not wait, or not any longer. Nothing changed.
#[derive(Clone, Copy, Debug, PartialEq, Eq)]
pub struct Refused;

impl std::fmt::Display for Refused {
    fn fmt(&self, f: &mut std::fmt::Formatter<'_>) -> std::fmt::Result {
        f.write_str("the guard is false")
    }
}

impl std::error::Error for Refused {}
