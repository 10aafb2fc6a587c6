// The monitor `Barrier` as a module of Rust, made by `expresso emit` 0.2.0.
// Change the monitor, and not this file. It wants Rust 1.65 and the edition 2021, or later ones.

use std::sync::{Condvar, Mutex, MutexGuard, PoisonError};
use std::time::{Duration, Instant};

/// The monitor `Barrier`. Threads share it by reference. A call waits for its guard, unless it tries.
///
/// Its lock guards data `D` too, for the functions that calls are given.
/**
# Plan

```text
plan Barrier
condition 1 broadcast: !open
condition 2 broadcast: open
block arrive: 2 broadcast tested
block leave: 1 broadcast tested
```
*/
#[allow(dead_code, non_camel_case_types)]
#[allow(clippy::doc_markdown, clippy::upper_case_acronyms)]
pub struct Barrier<D = ()> {
    inner: Mutex<Inner<D>>,
    /// For calls that wait until `!open`.
    can_arrive: Condvar,
    /// For calls that wait until `open`.
    can_leave: Condvar,
}

#[rustfmt::skip]
#[allow(dead_code, clippy::doc_markdown, clippy::style)]
impl Barrier {
    /// The constant `PARTIES`.
    pub const PARTIES: i64 = 3;

    /// The monitor at its start.
    #[must_use]
    pub const fn new() -> Self {
        Self::with_data(())
    }
}

#[rustfmt::skip]
#[allow(dead_code, non_snake_case)]
#[allow(clippy::doc_markdown, clippy::style, clippy::too_many_arguments)]
impl<D> Barrier<D> {
    /// The monitor at its start, with these data.
    #[must_use]
    pub const fn with_data(data: D) -> Self {
        Self {
            inner: Mutex::new(Inner {
                state: State::START,
                asleep_arrive: 0,
                asleep_leave: 0,
                data,
            }),
            can_arrive: Condvar::new(),
            can_leave: Condvar::new(),
        }
    }

    /// The data, which nobody shares now.
    #[must_use]
    pub fn get_mut(&mut self) -> &mut D {
        &mut self.inner.get_mut().unwrap_or_else(PoisonError::into_inner).data
    }

    /// The data, without the monitor.
    #[must_use]
    pub fn into_inner(self) -> D {
        self.inner.into_inner().unwrap_or_else(PoisonError::into_inner).data
    }

    /// Whether the mutex is poisoned, as where a function panicked that a call was given.
    #[must_use]
    pub fn is_poisoned(&self) -> bool {
        self.inner.is_poisoned()
    }

    /// Waits until `!open`.
    ///
    /// # Errors
    ///
    /// [`Overflow`] where a number would leave 64 bits. Then nothing changes.
    pub fn arrive(&self) -> Result<(), Overflow> {
        let mut inner = lock(&self.inner);
        while !inner.state.can_arrive() {
            inner.asleep_arrive += 1;
            inner = wait(&self.can_arrive, inner);
            inner.asleep_arrive -= 1;
        }
        let Ok(()) = inner.state.run_arrive() else {
            self.can_arrive.notify_one();
            return Err(Overflow);
        };
        let copy = inner.copy();
        drop(inner);
        if copy.asleep_leave > 0 && copy.state.can_leave() {
            self.can_leave.notify_all();
        }
        Ok(())
    }

    /// As [`arrive`](Self::arrive), and calls `f` with the data under the same lock.
    ///
    /// Where `f` panics no field changes. `f` must not call this monitor.
    ///
    /// # Errors
    ///
    /// [`Overflow`] where a number would leave 64 bits. Then nothing changes.
    pub fn arrive_with<R>(&self, f: impl FnOnce(&mut D) -> R) -> Result<R, Overflow> {
        let mut inner = lock(&self.inner);
        while !inner.state.can_arrive() {
            inner.asleep_arrive += 1;
            inner = wait(&self.can_arrive, inner);
            inner.asleep_arrive -= 1;
        }
        let hand = HandOn(&self.can_arrive);
        let mut next = inner.state;
        next.run_arrive()?;
        let result = f(&mut inner.data);
        std::mem::forget(hand);
        inner.state = next;
        let copy = inner.copy();
        drop(inner);
        if copy.asleep_leave > 0 && copy.state.can_leave() {
            self.can_leave.notify_all();
        }
        Ok(result)
    }

    /// As [`arrive`](Self::arrive), but does not wait until `!open`.
    ///
    /// # Errors
    ///
    /// [`Failed::Refused`] where `!open` is false. Then nothing changes.
    ///
    /// [`Failed::Overflow`] where a number would leave 64 bits. Then nothing changes.
    pub fn try_arrive(&self) -> Result<(), Failed> {
        let mut inner = lock(&self.inner);
        if !inner.state.can_arrive() {
            return Err(Failed::Refused);
        }
        let Ok(()) = inner.state.run_arrive() else {
            self.can_arrive.notify_one();
            return Err(Failed::Overflow);
        };
        let copy = inner.copy();
        drop(inner);
        if copy.asleep_leave > 0 && copy.state.can_leave() {
            self.can_leave.notify_all();
        }
        Ok(())
    }

    /// As [`try_arrive`](Self::try_arrive), and calls `f` with the data under the same lock.
    ///
    /// Where `f` panics no field changes. `f` must not call this monitor.
    ///
    /// # Errors
    ///
    /// [`Failed::Refused`] where `!open` is false. Then nothing changes.
    ///
    /// [`Failed::Overflow`] where a number would leave 64 bits. Then nothing changes.
    pub fn try_arrive_with<R>(&self, f: impl FnOnce(&mut D) -> R) -> Result<R, Failed> {
        let mut inner = lock(&self.inner);
        if !inner.state.can_arrive() {
            return Err(Failed::Refused);
        }
        let hand = HandOn(&self.can_arrive);
        let mut next = inner.state;
        next.run_arrive()?;
        let result = f(&mut inner.data);
        std::mem::forget(hand);
        inner.state = next;
        let copy = inner.copy();
        drop(inner);
        if copy.asleep_leave > 0 && copy.state.can_leave() {
            self.can_leave.notify_all();
        }
        Ok(result)
    }

    /// As [`arrive`](Self::arrive), but waits for `!open` no longer than until `end`.
    ///
    /// # Errors
    ///
    /// [`Failed::Refused`] where its time is over and `!open` is false. Then nothing changes.
    ///
    /// [`Failed::Overflow`] where a number would leave 64 bits. Then nothing changes.
    pub fn arrive_until(&self, end: Instant) -> Result<(), Failed> {
        let mut inner = lock(&self.inner);
        while !inner.state.can_arrive() {
            let Some(left) = time_left(end) else {
                return Err(Failed::Refused);
            };
            inner.asleep_arrive += 1;
            inner = wait_for(&self.can_arrive, inner, left);
            inner.asleep_arrive -= 1;
        }
        let Ok(()) = inner.state.run_arrive() else {
            self.can_arrive.notify_one();
            return Err(Failed::Overflow);
        };
        let copy = inner.copy();
        drop(inner);
        if copy.asleep_leave > 0 && copy.state.can_leave() {
            self.can_leave.notify_all();
        }
        Ok(())
    }

    /// As [`arrive_until`](Self::arrive_until), and calls `f` with the data under the same lock.
    ///
    /// Where `f` panics no field changes. `f` must not call this monitor.
    ///
    /// # Errors
    ///
    /// [`Failed::Refused`] where its time is over and `!open` is false. Then nothing changes.
    ///
    /// [`Failed::Overflow`] where a number would leave 64 bits. Then nothing changes.
    pub fn arrive_until_with<R>(&self, end: Instant, f: impl FnOnce(&mut D) -> R) -> Result<R, Failed> {
        let mut inner = lock(&self.inner);
        while !inner.state.can_arrive() {
            let Some(left) = time_left(end) else {
                return Err(Failed::Refused);
            };
            inner.asleep_arrive += 1;
            inner = wait_for(&self.can_arrive, inner, left);
            inner.asleep_arrive -= 1;
        }
        let hand = HandOn(&self.can_arrive);
        let mut next = inner.state;
        next.run_arrive()?;
        let result = f(&mut inner.data);
        std::mem::forget(hand);
        inner.state = next;
        let copy = inner.copy();
        drop(inner);
        if copy.asleep_leave > 0 && copy.state.can_leave() {
            self.can_leave.notify_all();
        }
        Ok(result)
    }

    /// As [`arrive`](Self::arrive), but waits for `!open` no longer than `time`.
    ///
    /// # Errors
    ///
    /// [`Failed::Refused`] where its time is over and `!open` is false. Then nothing changes.
    ///
    /// [`Failed::Overflow`] where a number would leave 64 bits. Then nothing changes.
    pub fn arrive_for(&self, time: Duration) -> Result<(), Failed> {
        let Some(end) = Instant::now().checked_add(time) else {
            self.arrive()?;
            return Ok(());
        };
        self.arrive_until(end)
    }

    /// As [`arrive_for`](Self::arrive_for), and calls `f` with the data under the same lock.
    ///
    /// Where `f` panics no field changes. `f` must not call this monitor.
    ///
    /// # Errors
    ///
    /// [`Failed::Refused`] where its time is over and `!open` is false. Then nothing changes.
    ///
    /// [`Failed::Overflow`] where a number would leave 64 bits. Then nothing changes.
    pub fn arrive_for_with<R>(&self, time: Duration, f: impl FnOnce(&mut D) -> R) -> Result<R, Failed> {
        let Some(end) = Instant::now().checked_add(time) else {
            return Ok(self.arrive_with(f)?);
        };
        self.arrive_until_with(end, f)
    }

    /// Waits until `open`.
    ///
    /// # Errors
    ///
    /// [`Overflow`] where a number would leave 64 bits. Then nothing changes.
    pub fn leave(&self) -> Result<i64, Overflow> {
        let mut inner = lock(&self.inner);
        while !inner.state.can_leave() {
            inner.asleep_leave += 1;
            inner = wait(&self.can_leave, inner);
            inner.asleep_leave -= 1;
        }
        let Ok(answer) = inner.state.run_leave() else {
            self.can_leave.notify_one();
            return Err(Overflow);
        };
        let copy = inner.copy();
        drop(inner);
        if copy.asleep_arrive > 0 && copy.state.can_arrive() {
            self.can_arrive.notify_all();
        }
        Ok(answer)
    }

    /// As [`leave`](Self::leave), and calls `f` with the data and the answer under the same lock.
    ///
    /// Where `f` panics no field changes. `f` must not call this monitor.
    ///
    /// # Errors
    ///
    /// [`Overflow`] where a number would leave 64 bits. Then nothing changes.
    pub fn leave_with<R>(&self, f: impl FnOnce(&mut D, i64) -> R) -> Result<R, Overflow> {
        let mut inner = lock(&self.inner);
        while !inner.state.can_leave() {
            inner.asleep_leave += 1;
            inner = wait(&self.can_leave, inner);
            inner.asleep_leave -= 1;
        }
        let hand = HandOn(&self.can_leave);
        let mut next = inner.state;
        let answer = next.run_leave()?;
        let result = f(&mut inner.data, answer);
        std::mem::forget(hand);
        inner.state = next;
        let copy = inner.copy();
        drop(inner);
        if copy.asleep_arrive > 0 && copy.state.can_arrive() {
            self.can_arrive.notify_all();
        }
        Ok(result)
    }

    /// As [`leave`](Self::leave), but does not wait until `open`.
    ///
    /// # Errors
    ///
    /// [`Failed::Refused`] where `open` is false. Then nothing changes.
    ///
    /// [`Failed::Overflow`] where a number would leave 64 bits. Then nothing changes.
    pub fn try_leave(&self) -> Result<i64, Failed> {
        let mut inner = lock(&self.inner);
        if !inner.state.can_leave() {
            return Err(Failed::Refused);
        }
        let Ok(answer) = inner.state.run_leave() else {
            self.can_leave.notify_one();
            return Err(Failed::Overflow);
        };
        let copy = inner.copy();
        drop(inner);
        if copy.asleep_arrive > 0 && copy.state.can_arrive() {
            self.can_arrive.notify_all();
        }
        Ok(answer)
    }

    /// As [`try_leave`](Self::try_leave), and calls `f` with the data and the answer under the same lock.
    ///
    /// Where `f` panics no field changes. `f` must not call this monitor.
    ///
    /// # Errors
    ///
    /// [`Failed::Refused`] where `open` is false. Then nothing changes.
    ///
    /// [`Failed::Overflow`] where a number would leave 64 bits. Then nothing changes.
    pub fn try_leave_with<R>(&self, f: impl FnOnce(&mut D, i64) -> R) -> Result<R, Failed> {
        let mut inner = lock(&self.inner);
        if !inner.state.can_leave() {
            return Err(Failed::Refused);
        }
        let hand = HandOn(&self.can_leave);
        let mut next = inner.state;
        let answer = next.run_leave()?;
        let result = f(&mut inner.data, answer);
        std::mem::forget(hand);
        inner.state = next;
        let copy = inner.copy();
        drop(inner);
        if copy.asleep_arrive > 0 && copy.state.can_arrive() {
            self.can_arrive.notify_all();
        }
        Ok(result)
    }

    /// As [`leave`](Self::leave), but waits for `open` no longer than until `end`.
    ///
    /// # Errors
    ///
    /// [`Failed::Refused`] where its time is over and `open` is false. Then nothing changes.
    ///
    /// [`Failed::Overflow`] where a number would leave 64 bits. Then nothing changes.
    pub fn leave_until(&self, end: Instant) -> Result<i64, Failed> {
        let mut inner = lock(&self.inner);
        while !inner.state.can_leave() {
            let Some(left) = time_left(end) else {
                return Err(Failed::Refused);
            };
            inner.asleep_leave += 1;
            inner = wait_for(&self.can_leave, inner, left);
            inner.asleep_leave -= 1;
        }
        let Ok(answer) = inner.state.run_leave() else {
            self.can_leave.notify_one();
            return Err(Failed::Overflow);
        };
        let copy = inner.copy();
        drop(inner);
        if copy.asleep_arrive > 0 && copy.state.can_arrive() {
            self.can_arrive.notify_all();
        }
        Ok(answer)
    }

    /// As [`leave_until`](Self::leave_until), and calls `f` with the data and the answer under the same lock.
    ///
    /// Where `f` panics no field changes. `f` must not call this monitor.
    ///
    /// # Errors
    ///
    /// [`Failed::Refused`] where its time is over and `open` is false. Then nothing changes.
    ///
    /// [`Failed::Overflow`] where a number would leave 64 bits. Then nothing changes.
    pub fn leave_until_with<R>(&self, end: Instant, f: impl FnOnce(&mut D, i64) -> R) -> Result<R, Failed> {
        let mut inner = lock(&self.inner);
        while !inner.state.can_leave() {
            let Some(left) = time_left(end) else {
                return Err(Failed::Refused);
            };
            inner.asleep_leave += 1;
            inner = wait_for(&self.can_leave, inner, left);
            inner.asleep_leave -= 1;
        }
        let hand = HandOn(&self.can_leave);
        let mut next = inner.state;
        let answer = next.run_leave()?;
        let result = f(&mut inner.data, answer);
        std::mem::forget(hand);
        inner.state = next;
        let copy = inner.copy();
        drop(inner);
        if copy.asleep_arrive > 0 && copy.state.can_arrive() {
            self.can_arrive.notify_all();
        }
        Ok(result)
    }

    /// As [`leave`](Self::leave), but waits for `open` no longer than `time`.
    ///
    /// # Errors
    ///
    /// [`Failed::Refused`] where its time is over and `open` is false. Then nothing changes.
    ///
    /// [`Failed::Overflow`] where a number would leave 64 bits. Then nothing changes.
    pub fn leave_for(&self, time: Duration) -> Result<i64, Failed> {
        let Some(end) = Instant::now().checked_add(time) else {
            return Ok(self.leave()?);
        };
        self.leave_until(end)
    }

    /// As [`leave_for`](Self::leave_for), and calls `f` with the data and the answer under the same lock.
    ///
    /// Where `f` panics no field changes. `f` must not call this monitor.
    ///
    /// # Errors
    ///
    /// [`Failed::Refused`] where its time is over and `open` is false. Then nothing changes.
    ///
    /// [`Failed::Overflow`] where a number would leave 64 bits. Then nothing changes.
    pub fn leave_for_with<R>(&self, time: Duration, f: impl FnOnce(&mut D, i64) -> R) -> Result<R, Failed> {
        let Some(end) = Instant::now().checked_add(time) else {
            return Ok(self.leave_with(f)?);
        };
        self.leave_until_with(end, f)
    }
}

impl Default for Barrier {
    fn default() -> Self {
        Self::new()
    }
}

impl<D> std::fmt::Debug for Barrier<D> {
    fn fmt(&self, f: &mut std::fmt::Formatter<'_>) -> std::fmt::Result {
        let state = match self.inner.try_lock() {
            Ok(inner) => Some(inner.state),
            Err(std::sync::TryLockError::Poisoned(inner)) => Some(inner.into_inner().state),
            Err(std::sync::TryLockError::WouldBlock) => None,
        };
        let mut text = f.debug_struct("Barrier");
        match state {
            Some(state) => text.field("state", &state),
            None => text.field("state", &format_args!("<locked>")),
        };
        text.finish_non_exhaustive()
    }
}

/// What the mutex guards: the fields, how many calls sleep on each condition, and the data.
#[allow(dead_code)]
struct Inner<D = ()> {
    state: State,
    asleep_arrive: usize,
    asleep_leave: usize,
    data: D,
}

impl<D> Inner<D> {
    /// All but the data.
    #[allow(dead_code)]
    fn copy(&self) -> Inner {
        Inner {
            state: self.state,
            asleep_arrive: self.asleep_arrive,
            asleep_leave: self.asleep_leave,
            data: (),
        }
    }
}

/// The fields of the monitor.
#[derive(Clone, Copy, Debug)]
#[allow(dead_code)]
struct State {
    waiting: i64,
    open: bool,
}

// The guards and bodies, with expressions as the monitor has them.
#[rustfmt::skip]
#[allow(unused, unused_comparisons, clippy::all, clippy::pedantic)]
impl State {
    const START: Self = Self {
        waiting: 0,
        open: false,
    };

    fn can_arrive(&self) -> bool {
        !self.open
    }

    fn run_arrive(&mut self) -> Result<(), Overflow> {
        self.waiting = narrow(i128::from(self.waiting) + 1)?;
        if self.waiting == Barrier::PARTIES {
            self.open = true;
        }
        Ok(())
    }

    fn can_leave(&self) -> bool {
        self.open
    }

    fn run_leave(&mut self) -> Result<i64, Overflow> {
        self.waiting = narrow(i128::from(self.waiting) - 1)?;
        if self.waiting == 0 {
            self.open = false;
        }
        Ok(self.waiting)
    }
}

/// Locks the monitor, poisoned or not: where a function panicked its block changed no field.
fn lock<D>(inner: &Mutex<Inner<D>>) -> MutexGuard<'_, Inner<D>> {
    inner.lock().unwrap_or_else(PoisonError::into_inner)
}

/// Gives the lock back and waits on the condition, in one step, and takes the lock again.
fn wait<'a, D>(condition: &Condvar, inner: MutexGuard<'a, Inner<D>>) -> MutexGuard<'a, Inner<D>> {
    condition
        .wait(inner)
        .unwrap_or_else(PoisonError::into_inner)
}

/// Wakes one call that waits on the condition, where a block ends that changed nothing.
#[allow(dead_code)]
struct HandOn<'a>(&'a Condvar);

impl Drop for HandOn<'_> {
    fn drop(&mut self) {
        self.0.notify_one();
    }
}

/// As `wait`, but no longer than this.
fn wait_for<'a, D>(
    condition: &Condvar,
    inner: MutexGuard<'a, Inner<D>>,
    left: Duration,
) -> MutexGuard<'a, Inner<D>> {
    condition
        .wait_timeout(inner, left)
        .unwrap_or_else(PoisonError::into_inner)
        .0
}

/// How long it is until then, or `None` where it has come.
fn time_left(end: Instant) -> Option<Duration> {
    end.checked_duration_since(Instant::now())
        .filter(|left| !left.is_zero())
}

/// A number would have left 64 bits.
#[derive(Clone, Copy, Debug, PartialEq, Eq)]
pub struct Overflow;

impl std::fmt::Display for Overflow {
    fn fmt(&self, f: &mut std::fmt::Formatter<'_>) -> std::fmt::Result {
        f.write_str("a number would leave 64 bits")
    }
}

impl std::error::Error for Overflow {}

/// The number, where it has 64 bits.
fn narrow(number: i128) -> Result<i64, Overflow> {
    i64::try_from(number).map_err(|_| Overflow)
}

/// Why a call that tries, or has a time, has no answer.
#[derive(Clone, Copy, Debug, PartialEq, Eq)]
pub enum Failed {
    /// The guard was false, and the call did not wait, or not any longer. Nothing changed.
    Refused,
    /// A number would have left 64 bits.
    Overflow,
}

impl From<Overflow> for Failed {
    fn from(_: Overflow) -> Self {
        Self::Overflow
    }
}

impl std::fmt::Display for Failed {
    fn fmt(&self, f: &mut std::fmt::Formatter<'_>) -> std::fmt::Result {
        f.write_str(match self {
            Self::Refused => "the guard is false",
            Self::Overflow => "a number would leave 64 bits",
        })
    }
}

impl std::error::Error for Failed {}
