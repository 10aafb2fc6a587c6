// The monitor `Lock` as a module of Rust, made by `expresso emit` 0.2.0.
// Change the monitor, and not this file. It wants Rust 1.65 and the edition 2021, or later ones.

use std::sync::{Condvar, Mutex, MutexGuard, PoisonError};
use std::time::{Duration, Instant};

/// The monitor `Lock`. Threads share it by reference. A call waits for its guard, unless it tries.
///
/// Its lock guards data `D` too, for the functions that calls are given.
/**
# Plan

```text
plan Lock
condition 1 signal: !held
condition 2 signal: held
block acquire: 2 signal
block release: 1 signal
```
*/
#[allow(dead_code, non_camel_case_types)]
#[allow(clippy::doc_markdown, clippy::upper_case_acronyms)]
pub struct Lock<D = ()> {
    inner: Mutex<Inner<D>>,
    /// For calls that wait until `!held`.
    can_acquire: Condvar,
    /// For calls that wait until `held`.
    can_release: Condvar,
}

#[rustfmt::skip]
#[allow(dead_code, clippy::doc_markdown, clippy::style)]
impl Lock {
    /// The monitor at its start.
    #[must_use]
    pub const fn new() -> Self {
        Self::with_data(())
    }
}

#[rustfmt::skip]
#[allow(dead_code, non_snake_case)]
#[allow(clippy::doc_markdown, clippy::style, clippy::too_many_arguments)]
impl<D> Lock<D> {
    /// The monitor at its start, with these data.
    #[must_use]
    pub const fn with_data(data: D) -> Self {
        Self {
            inner: Mutex::new(Inner {
                state: State::START,
                asleep_acquire: 0,
                asleep_release: 0,
                data,
            }),
            can_acquire: Condvar::new(),
            can_release: Condvar::new(),
        }
    }

    /// The data, which nobody shares now.
    #[must_use]
    pub fn get_mut(&mut self) -> &mut D {
        &mut self.inner.get_mut().unwrap_or_else(PoisonError::into_inner).data
    }

    /// The data, without the monitor.
    #[must_use]
    pub fn into_inner(self) -> D {
        self.inner.into_inner().unwrap_or_else(PoisonError::into_inner).data
    }

    /// Whether the mutex is poisoned, as where a function panicked that a call was given.
    #[must_use]
    pub fn is_poisoned(&self) -> bool {
        self.inner.is_poisoned()
    }

    /// Waits until `!held`.
    pub fn acquire(&self) {
        let mut inner = lock(&self.inner);
        while !inner.state.can_acquire() {
            inner.asleep_acquire += 1;
            inner = wait(&self.can_acquire, inner);
            inner.asleep_acquire -= 1;
        }
        inner.state.run_acquire();
        let copy = inner.copy();
        drop(inner);
        if copy.asleep_release > 0 {
            self.can_release.notify_one();
        }
    }

    /// As [`acquire`](Self::acquire), and calls `f` with the data under the same lock.
    ///
    /// Where `f` panics no field changes. `f` must not call this monitor.
    pub fn acquire_with<R>(&self, f: impl FnOnce(&mut D) -> R) -> R {
        let mut inner = lock(&self.inner);
        while !inner.state.can_acquire() {
            inner.asleep_acquire += 1;
            inner = wait(&self.can_acquire, inner);
            inner.asleep_acquire -= 1;
        }
        let hand = HandOn(&self.can_acquire);
        let mut next = inner.state;
        next.run_acquire();
        let result = f(&mut inner.data);
        std::mem::forget(hand);
        inner.state = next;
        let copy = inner.copy();
        drop(inner);
        if copy.asleep_release > 0 {
            self.can_release.notify_one();
        }
        result
    }

    /// As [`acquire`](Self::acquire), but does not wait until `!held`.
    ///
    /// # Errors
    ///
    /// [`Refused`] where `!held` is false. Then nothing changes.
    pub fn try_acquire(&self) -> Result<(), Refused> {
        let mut inner = lock(&self.inner);
        if !inner.state.can_acquire() {
            return Err(Refused);
        }
        inner.state.run_acquire();
        let copy = inner.copy();
        drop(inner);
        if copy.asleep_release > 0 {
            self.can_release.notify_one();
        }
        Ok(())
    }

    /// As [`try_acquire`](Self::try_acquire), and calls `f` with the data under the same lock.
    ///
    /// Where `f` panics no field changes. `f` must not call this monitor.
    ///
    /// # Errors
    ///
    /// [`Refused`] where `!held` is false. Then nothing changes.
    pub fn try_acquire_with<R>(&self, f: impl FnOnce(&mut D) -> R) -> Result<R, Refused> {
        let mut inner = lock(&self.inner);
        if !inner.state.can_acquire() {
            return Err(Refused);
        }
        let hand = HandOn(&self.can_acquire);
        let mut next = inner.state;
        next.run_acquire();
        let result = f(&mut inner.data);
        std::mem::forget(hand);
        inner.state = next;
        let copy = inner.copy();
        drop(inner);
        if copy.asleep_release > 0 {
            self.can_release.notify_one();
        }
        Ok(result)
    }

    /// As [`acquire`](Self::acquire), but waits for `!held` no longer than until `end`.
    ///
    /// # Errors
    ///
    /// [`Refused`] where its time is over and `!held` is false. Then nothing changes.
    pub fn acquire_until(&self, end: Instant) -> Result<(), Refused> {
        let mut inner = lock(&self.inner);
        while !inner.state.can_acquire() {
            let Some(left) = time_left(end) else {
                return Err(Refused);
            };
            inner.asleep_acquire += 1;
            inner = wait_for(&self.can_acquire, inner, left);
            inner.asleep_acquire -= 1;
        }
        inner.state.run_acquire();
        let copy = inner.copy();
        drop(inner);
        if copy.asleep_release > 0 {
            self.can_release.notify_one();
        }
        Ok(())
    }

    /// As [`acquire_until`](Self::acquire_until), and calls `f` with the data under the same lock.
    ///
    /// Where `f` panics no field changes. `f` must not call this monitor.
    ///
    /// # Errors
    ///
    /// [`Refused`] where its time is over and `!held` is false. Then nothing changes.
    pub fn acquire_until_with<R>(&self, end: Instant, f: impl FnOnce(&mut D) -> R) -> Result<R, Refused> {
        let mut inner = lock(&self.inner);
        while !inner.state.can_acquire() {
            let Some(left) = time_left(end) else {
                return Err(Refused);
            };
            inner.asleep_acquire += 1;
            inner = wait_for(&self.can_acquire, inner, left);
            inner.asleep_acquire -= 1;
        }
        let hand = HandOn(&self.can_acquire);
        let mut next = inner.state;
        next.run_acquire();
        let result = f(&mut inner.data);
        std::mem::forget(hand);
        inner.state = next;
        let copy = inner.copy();
        drop(inner);
        if copy.asleep_release > 0 {
            self.can_release.notify_one();
        }
        Ok(result)
    }

    /// As [`acquire`](Self::acquire), but waits for `!held` no longer than `time`.
    ///
    /// # Errors
    ///
    /// [`Refused`] where its time is over and `!held` is false. Then nothing changes.
    pub fn acquire_for(&self, time: Duration) -> Result<(), Refused> {
        let Some(end) = Instant::now().checked_add(time) else {
            self.acquire();
            return Ok(());
        };
        self.acquire_until(end)
    }

    /// As [`acquire_for`](Self::acquire_for), and calls `f` with the data under the same lock.
    ///
    /// Where `f` panics no field changes. `f` must not call this monitor.
    ///
    /// # Errors
    ///
    /// [`Refused`] where its time is over and `!held` is false. Then nothing changes.
    pub fn acquire_for_with<R>(&self, time: Duration, f: impl FnOnce(&mut D) -> R) -> Result<R, Refused> {
        let Some(end) = Instant::now().checked_add(time) else {
            return Ok(self.acquire_with(f));
        };
        self.acquire_until_with(end, f)
    }

    /// Waits until `held`.
    pub fn release(&self) {
        let mut inner = lock(&self.inner);
        while !inner.state.can_release() {
            inner.asleep_release += 1;
            inner = wait(&self.can_release, inner);
            inner.asleep_release -= 1;
        }
        inner.state.run_release();
        let copy = inner.copy();
        drop(inner);
        if copy.asleep_acquire > 0 {
            self.can_acquire.notify_one();
        }
    }

    /// As [`release`](Self::release), and calls `f` with the data under the same lock.
    ///
    /// Where `f` panics no field changes. `f` must not call this monitor.
    pub fn release_with<R>(&self, f: impl FnOnce(&mut D) -> R) -> R {
        let mut inner = lock(&self.inner);
        while !inner.state.can_release() {
            inner.asleep_release += 1;
            inner = wait(&self.can_release, inner);
            inner.asleep_release -= 1;
        }
        let hand = HandOn(&self.can_release);
        let mut next = inner.state;
        next.run_release();
        let result = f(&mut inner.data);
        std::mem::forget(hand);
        inner.state = next;
        let copy = inner.copy();
        drop(inner);
        if copy.asleep_acquire > 0 {
            self.can_acquire.notify_one();
        }
        result
    }

    /// As [`release`](Self::release), but does not wait until `held`.
    ///
    /// # Errors
    ///
    /// [`Refused`] where `held` is false. Then nothing changes.
    pub fn try_release(&self) -> Result<(), Refused> {
        let mut inner = lock(&self.inner);
        if !inner.state.can_release() {
            return Err(Refused);
        }
        inner.state.run_release();
        let copy = inner.copy();
        drop(inner);
        if copy.asleep_acquire > 0 {
            self.can_acquire.notify_one();
        }
        Ok(())
    }

    /// As [`try_release`](Self::try_release), and calls `f` with the data under the same lock.
    ///
    /// Where `f` panics no field changes. `f` must not call this monitor.
    ///
    /// # Errors
    ///
    /// [`Refused`] where `held` is false. Then nothing changes.
    pub fn try_release_with<R>(&self, f: impl FnOnce(&mut D) -> R) -> Result<R, Refused> {
        let mut inner = lock(&self.inner);
        if !inner.state.can_release() {
            return Err(Refused);
        }
        let hand = HandOn(&self.can_release);
        let mut next = inner.state;
        next.run_release();
        let result = f(&mut inner.data);
        std::mem::forget(hand);
        inner.state = next;
        let copy = inner.copy();
        drop(inner);
        if copy.asleep_acquire > 0 {
            self.can_acquire.notify_one();
        }
        Ok(result)
    }

    /// As [`release`](Self::release), but waits for `held` no longer than until `end`.
    ///
    /// # Errors
    ///
    /// [`Refused`] where its time is over and `held` is false. Then nothing changes.
    pub fn release_until(&self, end: Instant) -> Result<(), Refused> {
        let mut inner = lock(&self.inner);
        while !inner.state.can_release() {
            let Some(left) = time_left(end) else {
                return Err(Refused);
            };
            inner.asleep_release += 1;
            inner = wait_for(&self.can_release, inner, left);
            inner.asleep_release -= 1;
        }
        inner.state.run_release();
        let copy = inner.copy();
        drop(inner);
        if copy.asleep_acquire > 0 {
            self.can_acquire.notify_one();
        }
        Ok(())
    }

    /// As [`release_until`](Self::release_until), and calls `f` with the data under the same lock.
    ///
    /// Where `f` panics no field changes. `f` must not call this monitor.
    ///
    /// # Errors
    ///
    /// [`Refused`] where its time is over and `held` is false. Then nothing changes.
    pub fn release_until_with<R>(&self, end: Instant, f: impl FnOnce(&mut D) -> R) -> Result<R, Refused> {
        let mut inner = lock(&self.inner);
        while !inner.state.can_release() {
            let Some(left) = time_left(end) else {
                return Err(Refused);
            };
            inner.asleep_release += 1;
            inner = wait_for(&self.can_release, inner, left);
            inner.asleep_release -= 1;
        }
        let hand = HandOn(&self.can_release);
        let mut next = inner.state;
        next.run_release();
        let result = f(&mut inner.data);
        std::mem::forget(hand);
        inner.state = next;
        let copy = inner.copy();
        drop(inner);
        if copy.asleep_acquire > 0 {
            self.can_acquire.notify_one();
        }
        Ok(result)
    }

    /// As [`release`](Self::release), but waits for `held` no longer than `time`.
    ///
    /// # Errors
    ///
    /// [`Refused`] where its time is over and `held` is false. Then nothing changes.
    pub fn release_for(&self, time: Duration) -> Result<(), Refused> {
        let Some(end) = Instant::now().checked_add(time) else {
            self.release();
            return Ok(());
        };
        self.release_until(end)
    }

    /// As [`release_for`](Self::release_for), and calls `f` with the data under the same lock.
    ///
    /// Where `f` panics no field changes. `f` must not call this monitor.
    ///
    /// # Errors
    ///
    /// [`Refused`] where its time is over and `held` is false. Then nothing changes.
    pub fn release_for_with<R>(&self, time: Duration, f: impl FnOnce(&mut D) -> R) -> Result<R, Refused> {
        let Some(end) = Instant::now().checked_add(time) else {
            return Ok(self.release_with(f));
        };
        self.release_until_with(end, f)
    }
}

impl Default for Lock {
    fn default() -> Self {
        Self::new()
    }
}

impl<D> std::fmt::Debug for Lock<D> {
    fn fmt(&self, f: &mut std::fmt::Formatter<'_>) -> std::fmt::Result {
        let state = match self.inner.try_lock() {
            Ok(inner) => Some(inner.state),
            Err(std::sync::TryLockError::Poisoned(inner)) => Some(inner.into_inner().state),
            Err(std::sync::TryLockError::WouldBlock) => None,
        };
        let mut text = f.debug_struct("Lock");
        match state {
            Some(state) => text.field("state", &state),
            None => text.field("state", &format_args!("<locked>")),
        };
        text.finish_non_exhaustive()
    }
}

/// What the mutex guards: the fields, how many calls sleep on each condition, and the data.
#[allow(dead_code)]
struct Inner<D = ()> {
    state: State,
    asleep_acquire: usize,
    asleep_release: usize,
    data: D,
}

impl<D> Inner<D> {
    /// All but the data.
    #[allow(dead_code)]
    fn copy(&self) -> Inner {
        Inner {
            state: self.state,
            asleep_acquire: self.asleep_acquire,
            asleep_release: self.asleep_release,
            data: (),
        }
    }
}

/// The fields of the monitor.
#[derive(Clone, Copy, Debug)]
#[allow(dead_code)]
struct State {
    held: bool,
}

// The guards and bodies, with expressions as the monitor has them.
#[rustfmt::skip]
#[allow(unused, unused_comparisons, clippy::all, clippy::pedantic)]
impl State {
    const START: Self = Self {
        held: false,
    };

    fn can_acquire(&self) -> bool {
        !self.held
    }

    fn run_acquire(&mut self) {
        self.held = true;
    }

    fn can_release(&self) -> bool {
        self.held
    }

    fn run_release(&mut self) {
        self.held = false;
    }
}

/// Locks the monitor, poisoned or not: where a function panicked its block changed no field.
fn lock<D>(inner: &Mutex<Inner<D>>) -> MutexGuard<'_, Inner<D>> {
    inner.lock().unwrap_or_else(PoisonError::into_inner)
}

/// Gives the lock back and waits on the condition, in one step, and takes the lock again.
fn wait<'a, D>(condition: &Condvar, inner: MutexGuard<'a, Inner<D>>) -> MutexGuard<'a, Inner<D>> {
    condition
        .wait(inner)
        .unwrap_or_else(PoisonError::into_inner)
}

/// Wakes one call that waits on the condition, where a block ends that changed nothing.
#[allow(dead_code)]
struct HandOn<'a>(&'a Condvar);

impl Drop for HandOn<'_> {
    fn drop(&mut self) {
        self.0.notify_one();
    }
}

/// As `wait`, but no longer than this.
fn wait_for<'a, D>(
    condition: &Condvar,
    inner: MutexGuard<'a, Inner<D>>,
    left: Duration,
) -> MutexGuard<'a, Inner<D>> {
    condition
        .wait_timeout(inner, left)
        .unwrap_or_else(PoisonError::into_inner)
        .0
}

/// How long it is until then, or `None` where it has come.
fn time_left(end: Instant) -> Option<Duration> {
    end.checked_duration_since(Instant::now())
        .filter(|left| !left.is_zero())
}

/// The guard was false, and the call did not wait, or not any longer. Nothing changed.
#[derive(Clone, Copy, Debug, PartialEq, Eq)]
pub struct Refused;

impl std::fmt::Display for Refused {
    fn fmt(&self, f: &mut std::fmt::Formatter<'_>) -> std::fmt::Result {
        f.write_str("the guard is false")
    }
}

impl std::error::Error for Refused {}
