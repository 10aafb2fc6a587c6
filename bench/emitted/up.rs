// The monitor `Up` as a module of Rust, made by `expresso emit` 0.2.0.
// Change the monitor, and not this file. It wants Rust 1.65 and the edition 2021, or later ones.

use std::sync::{Condvar, Mutex, MutexGuard, PoisonError};
use std::time::{Duration, Instant};

/// The monitor `Up`. Threads share it by reference. A call waits for its guard, unless it tries.
///
/// Its lock guards data `D` too, for the functions that calls are given.
/**
# Plan

```text
plan Up
keep x >= 0
keep x >= 9223372036854775807
keep x >= 1
keep x >= 2
condition 1 broadcast: x > 0
block inc: none
```
*/
#[allow(dead_code, non_camel_case_types)]
#[allow(clippy::doc_markdown, clippy::upper_case_acronyms)]
pub struct Up<D = ()> {
    inner: Mutex<Inner<D>>,
    /// For calls that wait until `x > 0`.
    can_inc: Condvar,
}

#[rustfmt::skip]
#[allow(dead_code, clippy::doc_markdown, clippy::style)]
impl Up {
    /// The monitor at its start.
    #[must_use]
    pub const fn new() -> Self {
        Self::with_data(())
    }
}

#[rustfmt::skip]
#[allow(dead_code, non_snake_case)]
#[allow(clippy::doc_markdown, clippy::style, clippy::too_many_arguments)]
impl<D> Up<D> {
    /// The monitor at its start, with these data.
    #[must_use]
    pub const fn with_data(data: D) -> Self {
        Self {
            inner: Mutex::new(Inner {
                state: State::START,
                asleep_inc: 0,
                data,
            }),
            can_inc: Condvar::new(),
        }
    }

    /// The data, which nobody shares now.
    #[must_use]
    pub fn get_mut(&mut self) -> &mut D {
        &mut self.inner.get_mut().unwrap_or_else(PoisonError::into_inner).data
    }

    /// The data, without the monitor.
    #[must_use]
    pub fn into_inner(self) -> D {
        self.inner.into_inner().unwrap_or_else(PoisonError::into_inner).data
    }

    /// Whether the mutex is poisoned, as where a function panicked that a call was given.
    #[must_use]
    pub fn is_poisoned(&self) -> bool {
        self.inner.is_poisoned()
    }

    /// Waits until `x > 0`.
    ///
    /// # Errors
    ///
    /// [`Overflow`] where a number would leave 64 bits. Then nothing changes.
    pub fn inc(&self) -> Result<(), Overflow> {
        let mut inner = lock(&self.inner);
        while !inner.state.can_inc() {
            inner.asleep_inc += 1;
            inner = wait(&self.can_inc, inner);
            inner.asleep_inc -= 1;
        }
        let Ok(()) = inner.state.run_inc() else {
            self.can_inc.notify_one();
            return Err(Overflow);
        };
        drop(inner);
        Ok(())
    }

    /// As [`inc`](Self::inc), and calls `f` with the data under the same lock.
    ///
    /// Where `f` panics no field changes. `f` must not call this monitor.
    ///
    /// # Errors
    ///
    /// [`Overflow`] where a number would leave 64 bits. Then nothing changes.
    pub fn inc_with<R>(&self, f: impl FnOnce(&mut D) -> R) -> Result<R, Overflow> {
        let mut inner = lock(&self.inner);
        while !inner.state.can_inc() {
            inner.asleep_inc += 1;
            inner = wait(&self.can_inc, inner);
            inner.asleep_inc -= 1;
        }
        let hand = HandOn(&self.can_inc);
        let mut next = inner.state;
        next.run_inc()?;
        let result = f(&mut inner.data);
        std::mem::forget(hand);
        inner.state = next;
        drop(inner);
        Ok(result)
    }

    /// As [`inc`](Self::inc), but does not wait until `x > 0`.
    ///
    /// # Errors
    ///
    /// [`Failed::Refused`] where `x > 0` is false. Then nothing changes.
    ///
    /// [`Failed::Overflow`] where a number would leave 64 bits. Then nothing changes.
    pub fn try_inc(&self) -> Result<(), Failed> {
        let mut inner = lock(&self.inner);
        if !inner.state.can_inc() {
            return Err(Failed::Refused);
        }
        let Ok(()) = inner.state.run_inc() else {
            self.can_inc.notify_one();
            return Err(Failed::Overflow);
        };
        drop(inner);
        Ok(())
    }

    /// As [`try_inc`](Self::try_inc), and calls `f` with the data under the same lock.
    ///
    /// Where `f` panics no field changes. `f` must not call this monitor.
    ///
    /// # Errors
    ///
    /// [`Failed::Refused`] where `x > 0` is false. Then nothing changes.
    ///
    /// [`Failed::Overflow`] where a number would leave 64 bits. Then nothing changes.
    pub fn try_inc_with<R>(&self, f: impl FnOnce(&mut D) -> R) -> Result<R, Failed> {
        let mut inner = lock(&self.inner);
        if !inner.state.can_inc() {
            return Err(Failed::Refused);
        }
        let hand = HandOn(&self.can_inc);
        let mut next = inner.state;
        next.run_inc()?;
        let result = f(&mut inner.data);
        std::mem::forget(hand);
        inner.state = next;
        drop(inner);
        Ok(result)
    }

    /// As [`inc`](Self::inc), but waits for `x > 0` no longer than until `end`.
    ///
    /// # Errors
    ///
    /// [`Failed::Refused`] where its time is over and `x > 0` is false. Then nothing changes.
    ///
    /// [`Failed::Overflow`] where a number would leave 64 bits. Then nothing changes.
    pub fn inc_until(&self, end: Instant) -> Result<(), Failed> {
        let mut inner = lock(&self.inner);
        while !inner.state.can_inc() {
            let Some(left) = time_left(end) else {
                return Err(Failed::Refused);
            };
            inner.asleep_inc += 1;
            inner = wait_for(&self.can_inc, inner, left);
            inner.asleep_inc -= 1;
        }
        let Ok(()) = inner.state.run_inc() else {
            self.can_inc.notify_one();
            return Err(Failed::Overflow);
        };
        drop(inner);
        Ok(())
    }

    /// As [`inc_until`](Self::inc_until), and calls `f` with the data under the same lock.
    ///
    /// Where `f` panics no field changes. `f` must not call this monitor.
    ///
    /// # Errors
    ///
    /// [`Failed::Refused`] where its time is over and `x > 0` is false. Then nothing changes.
    ///
    /// [`Failed::Overflow`] where a number would leave 64 bits. Then nothing changes.
    pub fn inc_until_with<R>(&self, end: Instant, f: impl FnOnce(&mut D) -> R) -> Result<R, Failed> {
        let mut inner = lock(&self.inner);
        while !inner.state.can_inc() {
            let Some(left) = time_left(end) else {
                return Err(Failed::Refused);
            };
            inner.asleep_inc += 1;
            inner = wait_for(&self.can_inc, inner, left);
            inner.asleep_inc -= 1;
        }
        let hand = HandOn(&self.can_inc);
        let mut next = inner.state;
        next.run_inc()?;
        let result = f(&mut inner.data);
        std::mem::forget(hand);
        inner.state = next;
        drop(inner);
        Ok(result)
    }

    /// As [`inc`](Self::inc), but waits for `x > 0` no longer than `time`.
    ///
    /// # Errors
    ///
    /// [`Failed::Refused`] where its time is over and `x > 0` is false. Then nothing changes.
    ///
    /// [`Failed::Overflow`] where a number would leave 64 bits. Then nothing changes.
    pub fn inc_for(&self, time: Duration) -> Result<(), Failed> {
        let Some(end) = Instant::now().checked_add(time) else {
            self.inc()?;
            return Ok(());
        };
        self.inc_until(end)
    }

    /// As [`inc_for`](Self::inc_for), and calls `f` with the data under the same lock.
    ///
    /// Where `f` panics no field changes. `f` must not call this monitor.
    ///
    /// # Errors
    ///
    /// [`Failed::Refused`] where its time is over and `x > 0` is false. Then nothing changes.
    ///
    /// [`Failed::Overflow`] where a number would leave 64 bits. Then nothing changes.
    pub fn inc_for_with<R>(&self, time: Duration, f: impl FnOnce(&mut D) -> R) -> Result<R, Failed> {
        let Some(end) = Instant::now().checked_add(time) else {
            return Ok(self.inc_with(f)?);
        };
        self.inc_until_with(end, f)
    }
}

impl Default for Up {
    fn default() -> Self {
        Self::new()
    }
}

impl<D> std::fmt::Debug for Up<D> {
    fn fmt(&self, f: &mut std::fmt::Formatter<'_>) -> std::fmt::Result {
        let state = match self.inner.try_lock() {
            Ok(inner) => Some(inner.state),
            Err(std::sync::TryLockError::Poisoned(inner)) => Some(inner.into_inner().state),
            Err(std::sync::TryLockError::WouldBlock) => None,
        };
        let mut text = f.debug_struct("Up");
        match state {
            Some(state) => text.field("state", &state),
            None => text.field("state", &format_args!("<locked>")),
        };
        text.finish_non_exhaustive()
    }
}

/// What the mutex guards: the fields, how many calls sleep on each condition, and the data.
#[allow(dead_code)]
struct Inner<D = ()> {
    state: State,
    asleep_inc: usize,
    data: D,
}

impl<D> Inner<D> {
    /// All but the data.
    #[allow(dead_code)]
    fn copy(&self) -> Inner {
        Inner {
            state: self.state,
            asleep_inc: self.asleep_inc,
            data: (),
        }
    }
}

/// The fields of the monitor.
#[derive(Clone, Copy, Debug)]
#[allow(dead_code)]
struct State {
    x: i64,
}

// The guards and bodies, with expressions as the monitor has them.
#[rustfmt::skip]
#[allow(unused, unused_comparisons, clippy::all, clippy::pedantic)]
impl State {
    const START: Self = Self {
        x: 9223372036854775807,
    };

    fn can_inc(&self) -> bool {
        self.x > 0
    }

    fn run_inc(&mut self) -> Result<(), Overflow> {
        self.x = narrow(i128::from(self.x) + 1)?;
        Ok(())
    }
}

/// Locks the monitor, poisoned or not: where a function panicked its block changed no field.
fn lock<D>(inner: &Mutex<Inner<D>>) -> MutexGuard<'_, Inner<D>> {
    inner.lock().unwrap_or_else(PoisonError::into_inner)
}

/// Gives the lock back and waits on the condition, in one step, and takes the lock again.
fn wait<'a, D>(condition: &Condvar, inner: MutexGuard<'a, Inner<D>>) -> MutexGuard<'a, Inner<D>> {
    condition
        .wait(inner)
        .unwrap_or_else(PoisonError::into_inner)
}

/// Wakes one call that waits on the condition, where a block ends that changed nothing.
#[allow(dead_code)]
struct HandOn<'a>(&'a Condvar);

impl Drop for HandOn<'_> {
    fn drop(&mut self) {
        self.0.notify_one();
    }
}

/// As `wait`, but no longer than this.
fn wait_for<'a, D>(
    condition: &Condvar,
    inner: MutexGuard<'a, Inner<D>>,
    left: Duration,
) -> MutexGuard<'a, Inner<D>> {
    condition
        .wait_timeout(inner, left)
        .unwrap_or_else(PoisonError::into_inner)
        .0
}

/// How long it is until then, or `None` where it has come.
fn time_left(end: Instant) -> Option<Duration> {
    end.checked_duration_since(Instant::now())
        .filter(|left| !left.is_zero())
}

/// A number would have left 64 bits.
#[derive(Clone, Copy, Debug, PartialEq, Eq)]
pub struct Overflow;

impl std::fmt::Display for Overflow {
    fn fmt(&self, f: &mut std::fmt::Formatter<'_>) -> std::fmt::Result {
        f.write_str("a number would leave 64 bits")
    }
}

impl std::error::Error for Overflow {}

/// The number, where it has 64 bits.
fn narrow(number: i128) -> Result<i64, Overflow> {
    i64::try_from(number).map_err(|_| Overflow)
}

/// Why a call that tries, or has a time, has no answer.
#[derive(Clone, Copy, Debug, PartialEq, Eq)]
pub enum Failed {
    /// The guard was false, and the call did not wait, or not any longer. Nothing changed.
    Refused,
    /// A number would have left 64 bits.
    Overflow,
}

impl From<Overflow> for Failed {
    fn from(_: Overflow) -> Self {
        Self::Overflow
    }
}

impl std::fmt::Display for Failed {
    fn fmt(&self, f: &mut std::fmt::Formatter<'_>) -> std::fmt::Result {
        f.write_str(match self {
            Self::Refused => "the guard is false",
            Self::Overflow => "a number would leave 64 bits",
        })
    }
}

impl std::error::Error for Failed {}
