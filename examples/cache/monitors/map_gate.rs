// The monitor `MapGate` as a module of Rust, made by `expresso emit` 0.2.0.
// Change the monitor, and not this file. It wants Rust 1.65 and the edition 2021, or later ones.

use std::sync::{Condvar, Mutex, MutexGuard, PoisonError};
use std::time::{Duration, Instant};

/// Who may touch a map, and when: readers together, or one writer alone. A writer first queues, and
/// while one is queued no reader starts. Whoever ends has started, and the ends assert it: so they
/// never wait, and may be called where a guard of the map is dropped.
///
/// The monitor `MapGate`. Threads share it by reference. A call waits for its guard, unless it tries.
///
/// Its lock guards data `D` too, for the functions that calls are given.
/**
# Plan

```text
plan MapGate
keep state >= -1
keep state >= -2
keep queued >= 0
keep queued >= -1
condition 1 broadcast: state >= 0 && queued == 0
condition 2 broadcast: true
condition 3 signal: state == 0
block startRead: none
block endRead: 3 signal tested
block startWrite.1: none
block startWrite.2: none
block endWrite: 1 broadcast tested, 3 signal
```
*/
#[allow(dead_code, non_camel_case_types)]
#[allow(clippy::doc_markdown, clippy::upper_case_acronyms)]
pub struct MapGate<D = ()> {
    inner: Mutex<Inner<D>>,
    /// For calls that wait until `state >= 0 && queued == 0`.
    can_start_read: Condvar,
    /// For calls that wait until `state == 0`.
    can2_start_write: Condvar,
}

#[rustfmt::skip]
#[allow(dead_code, clippy::doc_markdown, clippy::style)]
impl MapGate {
    /// The monitor at its start.
    #[must_use]
    pub const fn new() -> Self {
        Self::with_data(())
    }
}

#[rustfmt::skip]
#[allow(dead_code, non_snake_case)]
#[allow(clippy::doc_markdown, clippy::style, clippy::too_many_arguments)]
impl<D> MapGate<D> {
    /// The monitor at its start, with these data.
    #[must_use]
    pub const fn with_data(data: D) -> Self {
        Self {
            inner: Mutex::new(Inner {
                state: State::START,
                asleep_start_read: 0,
                asleep2_start_write: 0,
                data,
            }),
            can_start_read: Condvar::new(),
            can2_start_write: Condvar::new(),
        }
    }

    /// The data, which nobody shares now.
    #[must_use]
    pub fn get_mut(&mut self) -> &mut D {
        &mut self.inner.get_mut().unwrap_or_else(PoisonError::into_inner).data
    }

    /// The data, without the monitor.
    #[must_use]
    pub fn into_inner(self) -> D {
        self.inner.into_inner().unwrap_or_else(PoisonError::into_inner).data
    }

    /// Whether the mutex is poisoned, as where a function panicked that a call was given.
    #[must_use]
    pub fn is_poisoned(&self) -> bool {
        self.inner.is_poisoned()
    }

    /// Waits until `state >= 0 && queued == 0`.
    ///
    /// # Errors
    ///
    /// [`Overflow`] where a number would leave 64 bits. Then nothing changes.
    pub fn start_read(&self) -> Result<(), Overflow> {
        let mut inner = lock(&self.inner);
        while !inner.state.can_start_read() {
            inner.asleep_start_read += 1;
            inner = wait(&self.can_start_read, inner);
            inner.asleep_start_read -= 1;
        }
        let Ok(()) = inner.state.run_start_read() else {
            self.can_start_read.notify_one();
            return Err(Overflow);
        };
        drop(inner);
        Ok(())
    }

    /// As [`start_read`](Self::start_read), and calls `f` with the data under the same lock.
    ///
    /// Where `f` panics no field changes. `f` must not call this monitor.
    ///
    /// # Errors
    ///
    /// [`Overflow`] where a number would leave 64 bits. Then nothing changes.
    pub fn start_read_with<R>(&self, f: impl FnOnce(&mut D) -> R) -> Result<R, Overflow> {
        let mut inner = lock(&self.inner);
        while !inner.state.can_start_read() {
            inner.asleep_start_read += 1;
            inner = wait(&self.can_start_read, inner);
            inner.asleep_start_read -= 1;
        }
        let hand = HandOn(&self.can_start_read);
        let mut next = inner.state;
        next.run_start_read()?;
        let result = f(&mut inner.data);
        std::mem::forget(hand);
        inner.state = next;
        drop(inner);
        Ok(result)
    }

    /// As [`start_read`](Self::start_read), but does not wait until `state >= 0 && queued == 0`.
    ///
    /// # Errors
    ///
    /// [`Failed::Refused`] where `state >= 0 && queued == 0` is false. Then nothing changes.
    ///
    /// [`Failed::Overflow`] where a number would leave 64 bits. Then nothing changes.
    pub fn try_start_read(&self) -> Result<(), Failed> {
        let mut inner = lock(&self.inner);
        if !inner.state.can_start_read() {
            return Err(Failed::Refused);
        }
        let Ok(()) = inner.state.run_start_read() else {
            self.can_start_read.notify_one();
            return Err(Failed::Overflow);
        };
        drop(inner);
        Ok(())
    }

    /// As [`try_start_read`](Self::try_start_read), and calls `f` with the data under the same lock.
    ///
    /// Where `f` panics no field changes. `f` must not call this monitor.
    ///
    /// # Errors
    ///
    /// [`Failed::Refused`] where `state >= 0 && queued == 0` is false. Then nothing changes.
    ///
    /// [`Failed::Overflow`] where a number would leave 64 bits. Then nothing changes.
    pub fn try_start_read_with<R>(&self, f: impl FnOnce(&mut D) -> R) -> Result<R, Failed> {
        let mut inner = lock(&self.inner);
        if !inner.state.can_start_read() {
            return Err(Failed::Refused);
        }
        let hand = HandOn(&self.can_start_read);
        let mut next = inner.state;
        next.run_start_read()?;
        let result = f(&mut inner.data);
        std::mem::forget(hand);
        inner.state = next;
        drop(inner);
        Ok(result)
    }

    /// As [`start_read`](Self::start_read), but waits for `state >= 0 && queued == 0` no longer than until `end`.
    ///
    /// # Errors
    ///
    /// [`Failed::Refused`] where its time is over and `state >= 0 && queued == 0` is false. Then nothing changes.
    ///
    /// [`Failed::Overflow`] where a number would leave 64 bits. Then nothing changes.
    pub fn start_read_until(&self, end: Instant) -> Result<(), Failed> {
        let mut inner = lock(&self.inner);
        while !inner.state.can_start_read() {
            let Some(left) = time_left(end) else {
                return Err(Failed::Refused);
            };
            inner.asleep_start_read += 1;
            inner = wait_for(&self.can_start_read, inner, left);
            inner.asleep_start_read -= 1;
        }
        let Ok(()) = inner.state.run_start_read() else {
            self.can_start_read.notify_one();
            return Err(Failed::Overflow);
        };
        drop(inner);
        Ok(())
    }

    /// As [`start_read_until`](Self::start_read_until), and calls `f` with the data under the same lock.
    ///
    /// Where `f` panics no field changes. `f` must not call this monitor.
    ///
    /// # Errors
    ///
    /// [`Failed::Refused`] where its time is over and `state >= 0 && queued == 0` is false. Then nothing changes.
    ///
    /// [`Failed::Overflow`] where a number would leave 64 bits. Then nothing changes.
    pub fn start_read_until_with<R>(&self, end: Instant, f: impl FnOnce(&mut D) -> R) -> Result<R, Failed> {
        let mut inner = lock(&self.inner);
        while !inner.state.can_start_read() {
            let Some(left) = time_left(end) else {
                return Err(Failed::Refused);
            };
            inner.asleep_start_read += 1;
            inner = wait_for(&self.can_start_read, inner, left);
            inner.asleep_start_read -= 1;
        }
        let hand = HandOn(&self.can_start_read);
        let mut next = inner.state;
        next.run_start_read()?;
        let result = f(&mut inner.data);
        std::mem::forget(hand);
        inner.state = next;
        drop(inner);
        Ok(result)
    }

    /// As [`start_read`](Self::start_read), but waits for `state >= 0 && queued == 0` no longer than `time`.
    ///
    /// # Errors
    ///
    /// [`Failed::Refused`] where its time is over and `state >= 0 && queued == 0` is false. Then nothing changes.
    ///
    /// [`Failed::Overflow`] where a number would leave 64 bits. Then nothing changes.
    pub fn start_read_for(&self, time: Duration) -> Result<(), Failed> {
        let Some(end) = Instant::now().checked_add(time) else {
            self.start_read()?;
            return Ok(());
        };
        self.start_read_until(end)
    }

    /// As [`start_read_for`](Self::start_read_for), and calls `f` with the data under the same lock.
    ///
    /// Where `f` panics no field changes. `f` must not call this monitor.
    ///
    /// # Errors
    ///
    /// [`Failed::Refused`] where its time is over and `state >= 0 && queued == 0` is false. Then nothing changes.
    ///
    /// [`Failed::Overflow`] where a number would leave 64 bits. Then nothing changes.
    pub fn start_read_for_with<R>(&self, time: Duration, f: impl FnOnce(&mut D) -> R) -> Result<R, Failed> {
        let Some(end) = Instant::now().checked_add(time) else {
            return Ok(self.start_read_with(f)?);
        };
        self.start_read_until_with(end, f)
    }

    /// Does not wait.
    ///
    /// # Errors
    ///
    /// [`Refused`] where `state > 0` is false. Then nothing changes.
    pub fn end_read(&self) -> Result<(), Refused> {
        let mut inner = lock(&self.inner);
        if !inner.state.can_end_read() {
            return Err(Refused);
        }
        inner.state.run_end_read();
        let copy = inner.copy();
        drop(inner);
        if copy.asleep2_start_write > 0 && copy.state.can2_start_write() {
            self.can2_start_write.notify_one();
        }
        Ok(())
    }

    /// As [`end_read`](Self::end_read), and calls `f` with the data under the same lock.
    ///
    /// Where `f` panics no field changes. `f` must not call this monitor.
    ///
    /// # Errors
    ///
    /// [`Refused`] where `state > 0` is false. Then nothing changes.
    pub fn end_read_with<R>(&self, f: impl FnOnce(&mut D) -> R) -> Result<R, Refused> {
        let mut inner = lock(&self.inner);
        if !inner.state.can_end_read() {
            return Err(Refused);
        }
        let mut next = inner.state;
        next.run_end_read();
        let result = f(&mut inner.data);
        inner.state = next;
        let copy = inner.copy();
        drop(inner);
        if copy.asleep2_start_write > 0 && copy.state.can2_start_write() {
            self.can2_start_write.notify_one();
        }
        Ok(result)
    }

    /// Does not wait.
    ///
    /// Then waits until `state == 0`.
    ///
    /// # Errors
    ///
    /// [`Overflow`] where a number would leave 64 bits. Its block then changes nothing, and no later one runs.
    pub fn start_write(&self) -> Result<(), Overflow> {
        let mut inner = lock(&self.inner);
        inner.state.run_start_write()?;
        drop(inner);
        let mut inner = lock(&self.inner);
        while !inner.state.can2_start_write() {
            inner.asleep2_start_write += 1;
            inner = wait(&self.can2_start_write, inner);
            inner.asleep2_start_write -= 1;
        }
        inner.state.run2_start_write();
        drop(inner);
        Ok(())
    }

    /// As [`start_write`](Self::start_write), and calls `f` with the data under the same lock, in its last block.
    ///
    /// Where `f` panics that block changes no field. `f` must not call this monitor.
    ///
    /// # Errors
    ///
    /// [`Overflow`] where a number would leave 64 bits. Its block then changes nothing, and no later one runs.
    pub fn start_write_with<R>(&self, f: impl FnOnce(&mut D) -> R) -> Result<R, Overflow> {
        let mut inner = lock(&self.inner);
        inner.state.run_start_write()?;
        drop(inner);
        let mut inner = lock(&self.inner);
        while !inner.state.can2_start_write() {
            inner.asleep2_start_write += 1;
            inner = wait(&self.can2_start_write, inner);
            inner.asleep2_start_write -= 1;
        }
        let hand = HandOn(&self.can2_start_write);
        let mut next = inner.state;
        next.run2_start_write();
        let result = f(&mut inner.data);
        std::mem::forget(hand);
        inner.state = next;
        drop(inner);
        Ok(result)
    }

    /// Does not wait.
    ///
    /// # Errors
    ///
    /// [`Refused`] where `state == -1` is false. Then nothing changes.
    pub fn end_write(&self) -> Result<(), Refused> {
        let mut inner = lock(&self.inner);
        if !inner.state.can_end_write() {
            return Err(Refused);
        }
        inner.state.run_end_write();
        let copy = inner.copy();
        drop(inner);
        if copy.asleep_start_read > 0 && copy.state.can_start_read() {
            self.can_start_read.notify_all();
        }
        if copy.asleep2_start_write > 0 {
            self.can2_start_write.notify_one();
        }
        Ok(())
    }

    /// As [`end_write`](Self::end_write), and calls `f` with the data under the same lock.
    ///
    /// Where `f` panics no field changes. `f` must not call this monitor.
    ///
    /// # Errors
    ///
    /// [`Refused`] where `state == -1` is false. Then nothing changes.
    pub fn end_write_with<R>(&self, f: impl FnOnce(&mut D) -> R) -> Result<R, Refused> {
        let mut inner = lock(&self.inner);
        if !inner.state.can_end_write() {
            return Err(Refused);
        }
        let mut next = inner.state;
        next.run_end_write();
        let result = f(&mut inner.data);
        inner.state = next;
        let copy = inner.copy();
        drop(inner);
        if copy.asleep_start_read > 0 && copy.state.can_start_read() {
            self.can_start_read.notify_all();
        }
        if copy.asleep2_start_write > 0 {
            self.can2_start_write.notify_one();
        }
        Ok(result)
    }
}

impl Default for MapGate {
    fn default() -> Self {
        Self::new()
    }
}

impl<D> std::fmt::Debug for MapGate<D> {
    fn fmt(&self, f: &mut std::fmt::Formatter<'_>) -> std::fmt::Result {
        let state = match self.inner.try_lock() {
            Ok(inner) => Some(inner.state),
            Err(std::sync::TryLockError::Poisoned(inner)) => Some(inner.into_inner().state),
            Err(std::sync::TryLockError::WouldBlock) => None,
        };
        let mut text = f.debug_struct("MapGate");
        match state {
            Some(state) => text.field("state", &state),
            None => text.field("state", &format_args!("<locked>")),
        };
        text.finish_non_exhaustive()
    }
}

/// What the mutex guards: the fields, how many calls sleep on each condition, and the data.
#[allow(dead_code)]
struct Inner<D = ()> {
    state: State,
    asleep_start_read: usize,
    asleep2_start_write: usize,
    data: D,
}

impl<D> Inner<D> {
    /// All but the data.
    #[allow(dead_code)]
    fn copy(&self) -> Inner {
        Inner {
            state: self.state,
            asleep_start_read: self.asleep_start_read,
            asleep2_start_write: self.asleep2_start_write,
            data: (),
        }
    }
}

/// The fields of the monitor.
#[derive(Clone, Copy, Debug)]
#[allow(dead_code)]
struct State {
    state: i64,
    queued: i64,
}

// The guards and bodies, with expressions as the monitor has them.
#[rustfmt::skip]
#[allow(unused, unused_comparisons, clippy::all, clippy::pedantic)]
impl State {
    const START: Self = Self {
        state: 0,
        queued: 0,
    };

    fn can_start_read(&self) -> bool {
        self.state >= 0 && self.queued == 0
    }

    fn run_start_read(&mut self) -> Result<(), Overflow> {
        self.state = narrow(i128::from(self.state) + 1)?;
        Ok(())
    }

    fn can_end_read(&self) -> bool {
        self.state > 0
    }

    fn run_end_read(&mut self) {
        self.state = self.state - 1;
    }

    fn run_start_write(&mut self) -> Result<(), Overflow> {
        self.queued = narrow(i128::from(self.queued) + 1)?;
        Ok(())
    }

    fn can2_start_write(&self) -> bool {
        self.state == 0
    }

    fn run2_start_write(&mut self) {
        self.state = -1;
        if self.queued > 0 {
            self.queued = self.queued - 1;
        }
    }

    fn can_end_write(&self) -> bool {
        self.state == -1
    }

    fn run_end_write(&mut self) {
        self.state = 0;
    }
}

/// Locks the monitor, poisoned or not: where a function panicked its block changed no field.
fn lock<D>(inner: &Mutex<Inner<D>>) -> MutexGuard<'_, Inner<D>> {
    inner.lock().unwrap_or_else(PoisonError::into_inner)
}

/// Gives the lock back and waits on the condition, in one step, and takes the lock again.
fn wait<'a, D>(condition: &Condvar, inner: MutexGuard<'a, Inner<D>>) -> MutexGuard<'a, Inner<D>> {
    condition
        .wait(inner)
        .unwrap_or_else(PoisonError::into_inner)
}

/// Wakes one call that waits on the condition, where a block ends that changed nothing.
#[allow(dead_code)]
struct HandOn<'a>(&'a Condvar);

impl Drop for HandOn<'_> {
    fn drop(&mut self) {
        self.0.notify_one();
    }
}

/// As `wait`, but no longer than this.
fn wait_for<'a, D>(
    condition: &Condvar,
    inner: MutexGuard<'a, Inner<D>>,
    left: Duration,
) -> MutexGuard<'a, Inner<D>> {
    condition
        .wait_timeout(inner, left)
        .unwrap_or_else(PoisonError::into_inner)
        .0
}

/// How long it is until then, or `None` where it has come.
fn time_left(end: Instant) -> Option<Duration> {
    end.checked_duration_since(Instant::now())
        .filter(|left| !left.is_zero())
}

/// A number would have left 64 bits.
#[derive(Clone, Copy, Debug, PartialEq, Eq)]
pub struct Overflow;

impl std::fmt::Display for Overflow {
    fn fmt(&self, f: &mut std::fmt::Formatter<'_>) -> std::fmt::Result {
        f.write_str("a number would leave 64 bits")
    }
}

impl std::error::Error for Overflow {}

/// The number, where it has 64 bits.
fn narrow(number: i128) -> Result<i64, Overflow> {
    i64::try_from(number).map_err(|_| Overflow)
}

/// The guard was false, and the call did not wait, or not any longer. Nothing changed.
#[derive(Clone, Copy, Debug, PartialEq, Eq)]
pub struct Refused;

impl std::fmt::Display for Refused {
    fn fmt(&self, f: &mut std::fmt::Formatter<'_>) -> std::fmt::Result {
        f.write_str("the guard is false")
    }
}

impl std::error::Error for Refused {}

/// Why a call that tries, or has a time, has no answer.
#[derive(Clone, Copy, Debug, PartialEq, Eq)]
pub enum Failed {
    /// The guard was false, and the call did not wait, or not any longer. Nothing changed.
    Refused,
    /// A number would have left 64 bits.
    Overflow,
}

impl From<Overflow> for Failed {
    fn from(_: Overflow) -> Self {
        Self::Overflow
    }
}

impl std::fmt::Display for Failed {
    fn fmt(&self, f: &mut std::fmt::Formatter<'_>) -> std::fmt::Result {
        f.write_str(match self {
            Self::Refused => "the guard is false",
            Self::Overflow => "a number would leave 64 bits",
        })
    }
}

impl std::error::Error for Failed {}
