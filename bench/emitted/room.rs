// The monitor `Room` as a module of Rust, made by `expresso emit` 0.2.0.
// Change the monitor, and not this file. It wants Rust 1.65 and the edition 2021, or later ones.

use std::sync::{Condvar, Mutex, MutexGuard, PoisonError};
use std::time::{Duration, Instant};

/// A room with places for so many.
///
/// The monitor `Room`. Threads share it by reference. A call waits for its guard, unless it tries.
///
/// Its lock guards data `D` too, for the functions that calls are given.
/**
# Plan

```text
plan Room
keep CAP >= 0
keep CAP >= 1
keep count >= 0
keep count <= CAP
condition 1 signal: count < CAP
condition 2 signal: count > 0
block put: 2 signal
block get: 1 signal
```
*/
#[allow(dead_code, non_camel_case_types)]
#[allow(clippy::doc_markdown, clippy::upper_case_acronyms)]
pub struct Room<D = ()> {
    inner: Mutex<Inner<D>>,
    /// For calls that wait until `count < CAP`.
    can_put: Condvar,
    /// For calls that wait until `count > 0`.
    can_get: Condvar,
}

#[rustfmt::skip]
#[allow(dead_code, clippy::doc_markdown, clippy::style)]
impl Room {
    /// Whether the monitor may have these parameters: whether `CAP >= 1`.
    #[must_use]
    #[allow(unused_comparisons, clippy::all, clippy::pedantic)]
    pub const fn admits(cap: i64) -> bool {
        cap >= 1
    }

    /// The monitor at its start.
    ///
    /// The parameter `CAP`:
    /// How many may be in it at a time.
    ///
    /// # Panics
    ///
    /// Where `CAP >= 1` is false: then a `const` or a `static` does not compile.
    #[must_use]
    #[track_caller]
    #[allow(clippy::similar_names, clippy::too_many_arguments)]
    pub const fn new(cap: i64) -> Self {
        Self::with_data(cap, ())
    }
}

#[rustfmt::skip]
#[allow(dead_code, non_snake_case)]
#[allow(clippy::doc_markdown, clippy::style, clippy::too_many_arguments)]
impl<D> Room<D> {
    /// The monitor at its start, with these data.
    ///
    /// The parameter `CAP`:
    /// How many may be in it at a time.
    ///
    /// # Panics
    ///
    /// Where `CAP >= 1` is false: then a `const` or a `static` does not compile.
    #[must_use]
    #[track_caller]
    #[allow(clippy::similar_names, clippy::too_many_arguments)]
    pub const fn with_data(cap: i64, data: D) -> Self {
        assert!(Room::admits(cap), "Room wants CAP >= 1");
        Self {
            inner: Mutex::new(Inner {
                state: State::start(cap),
                asleep_put: 0,
                asleep_get: 0,
                data,
            }),
            can_put: Condvar::new(),
            can_get: Condvar::new(),
        }
    }

    /// The data, which nobody shares now.
    #[must_use]
    pub fn get_mut(&mut self) -> &mut D {
        &mut self.inner.get_mut().unwrap_or_else(PoisonError::into_inner).data
    }

    /// The data, without the monitor.
    #[must_use]
    pub fn into_inner(self) -> D {
        self.inner.into_inner().unwrap_or_else(PoisonError::into_inner).data
    }

    /// Whether the mutex is poisoned, as where a function panicked that a call was given.
    #[must_use]
    pub fn is_poisoned(&self) -> bool {
        self.inner.is_poisoned()
    }

    /// Waits until `count < CAP`.
    pub fn put(&self) {
        let mut inner = lock(&self.inner);
        while !inner.state.can_put() {
            inner.asleep_put += 1;
            inner = wait(&self.can_put, inner);
            inner.asleep_put -= 1;
        }
        inner.state.run_put();
        let copy = inner.copy();
        drop(inner);
        if copy.asleep_get > 0 {
            self.can_get.notify_one();
        }
    }

    /// As [`put`](Self::put), and calls `f` with the data under the same lock.
    ///
    /// Where `f` panics no field changes. `f` must not call this monitor.
    pub fn put_with<R>(&self, f: impl FnOnce(&mut D) -> R) -> R {
        let mut inner = lock(&self.inner);
        while !inner.state.can_put() {
            inner.asleep_put += 1;
            inner = wait(&self.can_put, inner);
            inner.asleep_put -= 1;
        }
        let hand = HandOn(&self.can_put);
        let mut next = inner.state;
        next.run_put();
        let result = f(&mut inner.data);
        std::mem::forget(hand);
        inner.state = next;
        let copy = inner.copy();
        drop(inner);
        if copy.asleep_get > 0 {
            self.can_get.notify_one();
        }
        result
    }

    /// As [`put`](Self::put), but does not wait until `count < CAP`.
    ///
    /// # Errors
    ///
    /// [`Refused`] where `count < CAP` is false. Then nothing changes.
    pub fn try_put(&self) -> Result<(), Refused> {
        let mut inner = lock(&self.inner);
        if !inner.state.can_put() {
            return Err(Refused);
        }
        inner.state.run_put();
        let copy = inner.copy();
        drop(inner);
        if copy.asleep_get > 0 {
            self.can_get.notify_one();
        }
        Ok(())
    }

    /// As [`try_put`](Self::try_put), and calls `f` with the data under the same lock.
    ///
    /// Where `f` panics no field changes. `f` must not call this monitor.
    ///
    /// # Errors
    ///
    /// [`Refused`] where `count < CAP` is false. Then nothing changes.
    pub fn try_put_with<R>(&self, f: impl FnOnce(&mut D) -> R) -> Result<R, Refused> {
        let mut inner = lock(&self.inner);
        if !inner.state.can_put() {
            return Err(Refused);
        }
        let hand = HandOn(&self.can_put);
        let mut next = inner.state;
        next.run_put();
        let result = f(&mut inner.data);
        std::mem::forget(hand);
        inner.state = next;
        let copy = inner.copy();
        drop(inner);
        if copy.asleep_get > 0 {
            self.can_get.notify_one();
        }
        Ok(result)
    }

    /// As [`put`](Self::put), but waits for `count < CAP` no longer than until `end`.
    ///
    /// # Errors
    ///
    /// [`Refused`] where its time is over and `count < CAP` is false. Then nothing changes.
    pub fn put_until(&self, end: Instant) -> Result<(), Refused> {
        let mut inner = lock(&self.inner);
        while !inner.state.can_put() {
            let Some(left) = time_left(end) else {
                return Err(Refused);
            };
            inner.asleep_put += 1;
            inner = wait_for(&self.can_put, inner, left);
            inner.asleep_put -= 1;
        }
        inner.state.run_put();
        let copy = inner.copy();
        drop(inner);
        if copy.asleep_get > 0 {
            self.can_get.notify_one();
        }
        Ok(())
    }

    /// As [`put_until`](Self::put_until), and calls `f` with the data under the same lock.
    ///
    /// Where `f` panics no field changes. `f` must not call this monitor.
    ///
    /// # Errors
    ///
    /// [`Refused`] where its time is over and `count < CAP` is false. Then nothing changes.
    pub fn put_until_with<R>(&self, end: Instant, f: impl FnOnce(&mut D) -> R) -> Result<R, Refused> {
        let mut inner = lock(&self.inner);
        while !inner.state.can_put() {
            let Some(left) = time_left(end) else {
                return Err(Refused);
            };
            inner.asleep_put += 1;
            inner = wait_for(&self.can_put, inner, left);
            inner.asleep_put -= 1;
        }
        let hand = HandOn(&self.can_put);
        let mut next = inner.state;
        next.run_put();
        let result = f(&mut inner.data);
        std::mem::forget(hand);
        inner.state = next;
        let copy = inner.copy();
        drop(inner);
        if copy.asleep_get > 0 {
            self.can_get.notify_one();
        }
        Ok(result)
    }

    /// As [`put`](Self::put), but waits for `count < CAP` no longer than `time`.
    ///
    /// # Errors
    ///
    /// [`Refused`] where its time is over and `count < CAP` is false. Then nothing changes.
    pub fn put_for(&self, time: Duration) -> Result<(), Refused> {
        let Some(end) = Instant::now().checked_add(time) else {
            self.put();
            return Ok(());
        };
        self.put_until(end)
    }

    /// As [`put_for`](Self::put_for), and calls `f` with the data under the same lock.
    ///
    /// Where `f` panics no field changes. `f` must not call this monitor.
    ///
    /// # Errors
    ///
    /// [`Refused`] where its time is over and `count < CAP` is false. Then nothing changes.
    pub fn put_for_with<R>(&self, time: Duration, f: impl FnOnce(&mut D) -> R) -> Result<R, Refused> {
        let Some(end) = Instant::now().checked_add(time) else {
            return Ok(self.put_with(f));
        };
        self.put_until_with(end, f)
    }

    /// Whoever goes is told how many stay.
    ///
    /// Waits until `count > 0`.
    pub fn get(&self) -> i64 {
        let mut inner = lock(&self.inner);
        while !inner.state.can_get() {
            inner.asleep_get += 1;
            inner = wait(&self.can_get, inner);
            inner.asleep_get -= 1;
        }
        let answer = inner.state.run_get();
        let copy = inner.copy();
        drop(inner);
        if copy.asleep_put > 0 {
            self.can_put.notify_one();
        }
        answer
    }

    /// As [`get`](Self::get), and calls `f` with the data and the answer under the same lock.
    ///
    /// Where `f` panics no field changes. `f` must not call this monitor.
    pub fn get_with<R>(&self, f: impl FnOnce(&mut D, i64) -> R) -> R {
        let mut inner = lock(&self.inner);
        while !inner.state.can_get() {
            inner.asleep_get += 1;
            inner = wait(&self.can_get, inner);
            inner.asleep_get -= 1;
        }
        let hand = HandOn(&self.can_get);
        let mut next = inner.state;
        let answer = next.run_get();
        let result = f(&mut inner.data, answer);
        std::mem::forget(hand);
        inner.state = next;
        let copy = inner.copy();
        drop(inner);
        if copy.asleep_put > 0 {
            self.can_put.notify_one();
        }
        result
    }

    /// As [`get`](Self::get), but does not wait until `count > 0`.
    ///
    /// # Errors
    ///
    /// [`Refused`] where `count > 0` is false. Then nothing changes.
    pub fn try_get(&self) -> Result<i64, Refused> {
        let mut inner = lock(&self.inner);
        if !inner.state.can_get() {
            return Err(Refused);
        }
        let answer = inner.state.run_get();
        let copy = inner.copy();
        drop(inner);
        if copy.asleep_put > 0 {
            self.can_put.notify_one();
        }
        Ok(answer)
    }

    /// As [`try_get`](Self::try_get), and calls `f` with the data and the answer under the same lock.
    ///
    /// Where `f` panics no field changes. `f` must not call this monitor.
    ///
    /// # Errors
    ///
    /// [`Refused`] where `count > 0` is false. Then nothing changes.
    pub fn try_get_with<R>(&self, f: impl FnOnce(&mut D, i64) -> R) -> Result<R, Refused> {
        let mut inner = lock(&self.inner);
        if !inner.state.can_get() {
            return Err(Refused);
        }
        let hand = HandOn(&self.can_get);
        let mut next = inner.state;
        let answer = next.run_get();
        let result = f(&mut inner.data, answer);
        std::mem::forget(hand);
        inner.state = next;
        let copy = inner.copy();
        drop(inner);
        if copy.asleep_put > 0 {
            self.can_put.notify_one();
        }
        Ok(result)
    }

    /// As [`get`](Self::get), but waits for `count > 0` no longer than until `end`.
    ///
    /// # Errors
    ///
    /// [`Refused`] where its time is over and `count > 0` is false. Then nothing changes.
    pub fn get_until(&self, end: Instant) -> Result<i64, Refused> {
        let mut inner = lock(&self.inner);
        while !inner.state.can_get() {
            let Some(left) = time_left(end) else {
                return Err(Refused);
            };
            inner.asleep_get += 1;
            inner = wait_for(&self.can_get, inner, left);
            inner.asleep_get -= 1;
        }
        let answer = inner.state.run_get();
        let copy = inner.copy();
        drop(inner);
        if copy.asleep_put > 0 {
            self.can_put.notify_one();
        }
        Ok(answer)
    }

    /// As [`get_until`](Self::get_until), and calls `f` with the data and the answer under the same lock.
    ///
    /// Where `f` panics no field changes. `f` must not call this monitor.
    ///
    /// # Errors
    ///
    /// [`Refused`] where its time is over and `count > 0` is false. Then nothing changes.
    pub fn get_until_with<R>(&self, end: Instant, f: impl FnOnce(&mut D, i64) -> R) -> Result<R, Refused> {
        let mut inner = lock(&self.inner);
        while !inner.state.can_get() {
            let Some(left) = time_left(end) else {
                return Err(Refused);
            };
            inner.asleep_get += 1;
            inner = wait_for(&self.can_get, inner, left);
            inner.asleep_get -= 1;
        }
        let hand = HandOn(&self.can_get);
        let mut next = inner.state;
        let answer = next.run_get();
        let result = f(&mut inner.data, answer);
        std::mem::forget(hand);
        inner.state = next;
        let copy = inner.copy();
        drop(inner);
        if copy.asleep_put > 0 {
            self.can_put.notify_one();
        }
        Ok(result)
    }

    /// As [`get`](Self::get), but waits for `count > 0` no longer than `time`.
    ///
    /// # Errors
    ///
    /// [`Refused`] where its time is over and `count > 0` is false. Then nothing changes.
    pub fn get_for(&self, time: Duration) -> Result<i64, Refused> {
        let Some(end) = Instant::now().checked_add(time) else {
            return Ok(self.get());
        };
        self.get_until(end)
    }

    /// As [`get_for`](Self::get_for), and calls `f` with the data and the answer under the same lock.
    ///
    /// Where `f` panics no field changes. `f` must not call this monitor.
    ///
    /// # Errors
    ///
    /// [`Refused`] where its time is over and `count > 0` is false. Then nothing changes.
    pub fn get_for_with<R>(&self, time: Duration, f: impl FnOnce(&mut D, i64) -> R) -> Result<R, Refused> {
        let Some(end) = Instant::now().checked_add(time) else {
            return Ok(self.get_with(f));
        };
        self.get_until_with(end, f)
    }
}

impl<D> std::fmt::Debug for Room<D> {
    fn fmt(&self, f: &mut std::fmt::Formatter<'_>) -> std::fmt::Result {
        let state = match self.inner.try_lock() {
            Ok(inner) => Some(inner.state),
            Err(std::sync::TryLockError::Poisoned(inner)) => Some(inner.into_inner().state),
            Err(std::sync::TryLockError::WouldBlock) => None,
        };
        let mut text = f.debug_struct("Room");
        match state {
            Some(state) => text.field("state", &state),
            None => text.field("state", &format_args!("<locked>")),
        };
        text.finish_non_exhaustive()
    }
}

/// What the mutex guards: the fields, how many calls sleep on each condition, and the data.
#[allow(dead_code)]
struct Inner<D = ()> {
    state: State,
    asleep_put: usize,
    asleep_get: usize,
    data: D,
}

impl<D> Inner<D> {
    /// All but the data.
    #[allow(dead_code)]
    fn copy(&self) -> Inner {
        Inner {
            state: self.state,
            asleep_put: self.asleep_put,
            asleep_get: self.asleep_get,
            data: (),
        }
    }
}

/// The fields of the monitor.
#[derive(Clone, Copy, Debug)]
#[allow(dead_code)]
struct State {
    cap: i64,
    count: i64,
}

// The guards and bodies, with expressions as the monitor has them.
#[rustfmt::skip]
#[allow(unused, unused_comparisons, clippy::all, clippy::pedantic)]
impl State {
    const fn start(cap: i64) -> Self {
        Self {
            cap,
            count: 0,
        }
    }

    fn can_put(&self) -> bool {
        self.count < self.cap
    }

    fn run_put(&mut self) {
        self.count = self.count + 1;
    }

    fn can_get(&self) -> bool {
        self.count > 0
    }

    fn run_get(&mut self) -> i64 {
        self.count = self.count - 1;
        self.count
    }
}

/// Locks the monitor, poisoned or not: where a function panicked its block changed no field.
fn lock<D>(inner: &Mutex<Inner<D>>) -> MutexGuard<'_, Inner<D>> {
    inner.lock().unwrap_or_else(PoisonError::into_inner)
}

/// Gives the lock back and waits on the condition, in one step, and takes the lock again.
fn wait<'a, D>(condition: &Condvar, inner: MutexGuard<'a, Inner<D>>) -> MutexGuard<'a, Inner<D>> {
    condition
        .wait(inner)
        .unwrap_or_else(PoisonError::into_inner)
}

/// Wakes one call that waits on the condition, where a block ends that changed nothing.
#[allow(dead_code)]
struct HandOn<'a>(&'a Condvar);

impl Drop for HandOn<'_> {
    fn drop(&mut self) {
        self.0.notify_one();
    }
}

/// As `wait`, but no longer than this.
fn wait_for<'a, D>(
    condition: &Condvar,
    inner: MutexGuard<'a, Inner<D>>,
    left: Duration,
) -> MutexGuard<'a, Inner<D>> {
    condition
        .wait_timeout(inner, left)
        .unwrap_or_else(PoisonError::into_inner)
        .0
}

/// How long it is until then, or `None` where it has come.
fn time_left(end: Instant) -> Option<Duration> {
    end.checked_duration_since(Instant::now())
        .filter(|left| !left.is_zero())
}

/// The guard was false, and the call did not wait, or not any longer. Nothing changed.
#[derive(Clone, Copy, Debug, PartialEq, Eq)]
pub struct Refused;

impl std::fmt::Display for Refused {
    fn fmt(&self, f: &mut std::fmt::Formatter<'_>) -> std::fmt::Result {
        f.write_str("the guard is false")
    }
}

impl std::error::Error for Refused {}
