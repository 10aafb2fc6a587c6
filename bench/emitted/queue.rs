// The monitor `Queue` as a module of Rust, made by `expresso emit` 0.2.0.
// Change the monitor, and not this file. It wants Rust 1.65 and the edition 2021, or later ones.

use std::sync::{Condvar, Mutex, MutexGuard, PoisonError};
use std::time::{Duration, Instant};

/// A queue that knows its free places. Each item has a number, and none has one above the last.
///
/// The monitor `Queue`. Threads share it by reference. A call waits for its guard, unless it tries.
///
/// Its lock guards data `D` too, for the functions that calls are given.
/**
# Plan

```text
plan Queue
keep CAP >= 0
keep lastItem <= 999
keep free >= 0
keep used >= 0
keep next >= 0
keep next >= 1
keep used <= next
condition 1 signal: free > 0 && next <= lastItem
condition 2 signal: used > 0 || !open
condition 3 broadcast: true
block push: 2 signal
block pop: 1 signal tested
block close: 2 broadcast
block admits: none
```
*/
#[allow(dead_code, non_camel_case_types)]
#[allow(clippy::doc_markdown, clippy::upper_case_acronyms)]
pub struct Queue<D = ()> {
    inner: Mutex<Inner<D>>,
    /// For calls that wait until `free > 0 && next <= lastItem`.
    can_push: Condvar,
    /// For calls that wait until `used > 0 || !open`.
    can_pop: Condvar,
}

#[rustfmt::skip]
#[allow(dead_code, clippy::doc_markdown, clippy::style)]
impl Queue {
    /// The constant `FIRST`.
    pub const FIRST: i64 = 1;

    /// Whether the monitor may have these parameters: whether `CAP >= 0 && lastItem < 1000`.
    #[must_use]
    #[allow(unused_comparisons, clippy::all, clippy::pedantic)]
    pub const fn admits(cap: i64, last_item: i64) -> bool {
        cap >= 0 && last_item < 1000
    }

    /// The monitor at its start.
    ///
    /// The parameter `CAP`:
    /// How many items it holds:
    /// it may be none at all.
    ///
    /// The parameter `lastItem`.
    ///
    /// # Panics
    ///
    /// Where `CAP >= 0 && lastItem < 1000` is false: then a `const` or a `static` does not compile.
    #[must_use]
    #[track_caller]
    #[allow(clippy::similar_names, clippy::too_many_arguments)]
    pub const fn new(cap: i64, last_item: i64) -> Self {
        Self::with_data(cap, last_item, ())
    }
}

#[rustfmt::skip]
#[allow(dead_code, non_snake_case)]
#[allow(clippy::doc_markdown, clippy::style, clippy::too_many_arguments)]
impl<D> Queue<D> {
    /// The monitor at its start, with these data.
    ///
    /// The parameter `CAP`:
    /// How many items it holds:
    /// it may be none at all.
    ///
    /// The parameter `lastItem`.
    ///
    /// # Panics
    ///
    /// Where `CAP >= 0 && lastItem < 1000` is false: then a `const` or a `static` does not compile.
    #[must_use]
    #[track_caller]
    #[allow(clippy::similar_names, clippy::too_many_arguments)]
    pub const fn with_data(cap: i64, last_item: i64, data: D) -> Self {
        assert!(Queue::admits(cap, last_item), "Queue wants CAP >= 0 && lastItem < 1000");
        Self {
            inner: Mutex::new(Inner {
                state: State::start(cap, last_item),
                asleep_push: 0,
                asleep_pop: 0,
                data,
            }),
            can_push: Condvar::new(),
            can_pop: Condvar::new(),
        }
    }

    /// The data, which nobody shares now.
    #[must_use]
    pub fn get_mut(&mut self) -> &mut D {
        &mut self.inner.get_mut().unwrap_or_else(PoisonError::into_inner).data
    }

    /// The data, without the monitor.
    #[must_use]
    pub fn into_inner(self) -> D {
        self.inner.into_inner().unwrap_or_else(PoisonError::into_inner).data
    }

    /// Whether the mutex is poisoned, as where a function panicked that a call was given.
    #[must_use]
    pub fn is_poisoned(&self) -> bool {
        self.inner.is_poisoned()
    }

    /// Waits until `free > 0 && next <= lastItem`.
    pub fn push(&self) -> i64 {
        let mut inner = lock(&self.inner);
        while !inner.state.can_push() {
            inner.asleep_push += 1;
            inner = wait(&self.can_push, inner);
            inner.asleep_push -= 1;
        }
        let answer = inner.state.run_push();
        let copy = inner.copy();
        drop(inner);
        if copy.asleep_pop > 0 {
            self.can_pop.notify_one();
        }
        answer
    }

    /// As [`push`](Self::push), and calls `f` with the data and the answer under the same lock.
    ///
    /// Where `f` panics no field changes. `f` must not call this monitor.
    pub fn push_with<R>(&self, f: impl FnOnce(&mut D, i64) -> R) -> R {
        let mut inner = lock(&self.inner);
        while !inner.state.can_push() {
            inner.asleep_push += 1;
            inner = wait(&self.can_push, inner);
            inner.asleep_push -= 1;
        }
        let hand = HandOn(&self.can_push);
        let mut next = inner.state;
        let answer = next.run_push();
        let result = f(&mut inner.data, answer);
        std::mem::forget(hand);
        inner.state = next;
        let copy = inner.copy();
        drop(inner);
        if copy.asleep_pop > 0 {
            self.can_pop.notify_one();
        }
        result
    }

    /// As [`push`](Self::push), but does not wait until `free > 0 && next <= lastItem`.
    ///
    /// # Errors
    ///
    /// [`Refused`] where `free > 0 && next <= lastItem` is false. Then nothing changes.
    pub fn try_push(&self) -> Result<i64, Refused> {
        let mut inner = lock(&self.inner);
        if !inner.state.can_push() {
            return Err(Refused);
        }
        let answer = inner.state.run_push();
        let copy = inner.copy();
        drop(inner);
        if copy.asleep_pop > 0 {
            self.can_pop.notify_one();
        }
        Ok(answer)
    }

    /// As [`try_push`](Self::try_push), and calls `f` with the data and the answer under the same lock.
    ///
    /// Where `f` panics no field changes. `f` must not call this monitor.
    ///
    /// # Errors
    ///
    /// [`Refused`] where `free > 0 && next <= lastItem` is false. Then nothing changes.
    pub fn try_push_with<R>(&self, f: impl FnOnce(&mut D, i64) -> R) -> Result<R, Refused> {
        let mut inner = lock(&self.inner);
        if !inner.state.can_push() {
            return Err(Refused);
        }
        let hand = HandOn(&self.can_push);
        let mut next = inner.state;
        let answer = next.run_push();
        let result = f(&mut inner.data, answer);
        std::mem::forget(hand);
        inner.state = next;
        let copy = inner.copy();
        drop(inner);
        if copy.asleep_pop > 0 {
            self.can_pop.notify_one();
        }
        Ok(result)
    }

    /// As [`push`](Self::push), but waits for `free > 0 && next <= lastItem` no longer than until `end`.
    ///
    /// # Errors
    ///
    /// [`Refused`] where its time is over and `free > 0 && next <= lastItem` is false. Then nothing changes.
    pub fn push_until(&self, end: Instant) -> Result<i64, Refused> {
        let mut inner = lock(&self.inner);
        while !inner.state.can_push() {
            let Some(left) = time_left(end) else {
                return Err(Refused);
            };
            inner.asleep_push += 1;
            inner = wait_for(&self.can_push, inner, left);
            inner.asleep_push -= 1;
        }
        let answer = inner.state.run_push();
        let copy = inner.copy();
        drop(inner);
        if copy.asleep_pop > 0 {
            self.can_pop.notify_one();
        }
        Ok(answer)
    }

    /// As [`push_until`](Self::push_until), and calls `f` with the data and the answer under the same lock.
    ///
    /// Where `f` panics no field changes. `f` must not call this monitor.
    ///
    /// # Errors
    ///
    /// [`Refused`] where its time is over and `free > 0 && next <= lastItem` is false. Then nothing changes.
    pub fn push_until_with<R>(&self, end: Instant, f: impl FnOnce(&mut D, i64) -> R) -> Result<R, Refused> {
        let mut inner = lock(&self.inner);
        while !inner.state.can_push() {
            let Some(left) = time_left(end) else {
                return Err(Refused);
            };
            inner.asleep_push += 1;
            inner = wait_for(&self.can_push, inner, left);
            inner.asleep_push -= 1;
        }
        let hand = HandOn(&self.can_push);
        let mut next = inner.state;
        let answer = next.run_push();
        let result = f(&mut inner.data, answer);
        std::mem::forget(hand);
        inner.state = next;
        let copy = inner.copy();
        drop(inner);
        if copy.asleep_pop > 0 {
            self.can_pop.notify_one();
        }
        Ok(result)
    }

    /// As [`push`](Self::push), but waits for `free > 0 && next <= lastItem` no longer than `time`.
    ///
    /// # Errors
    ///
    /// [`Refused`] where its time is over and `free > 0 && next <= lastItem` is false. Then nothing changes.
    pub fn push_for(&self, time: Duration) -> Result<i64, Refused> {
        let Some(end) = Instant::now().checked_add(time) else {
            return Ok(self.push());
        };
        self.push_until(end)
    }

    /// As [`push_for`](Self::push_for), and calls `f` with the data and the answer under the same lock.
    ///
    /// Where `f` panics no field changes. `f` must not call this monitor.
    ///
    /// # Errors
    ///
    /// [`Refused`] where its time is over and `free > 0 && next <= lastItem` is false. Then nothing changes.
    pub fn push_for_with<R>(&self, time: Duration, f: impl FnOnce(&mut D, i64) -> R) -> Result<R, Refused> {
        let Some(end) = Instant::now().checked_add(time) else {
            return Ok(self.push_with(f));
        };
        self.push_until_with(end, f)
    }

    /// Waits until `used > 0 || !open`.
    ///
    /// # Errors
    ///
    /// [`Overflow`] where a number would leave 64 bits. Then nothing changes.
    pub fn pop(&self) -> Result<i64, Overflow> {
        let mut inner = lock(&self.inner);
        while !inner.state.can_pop() {
            inner.asleep_pop += 1;
            inner = wait(&self.can_pop, inner);
            inner.asleep_pop -= 1;
        }
        let Ok(answer) = inner.state.run_pop() else {
            self.can_pop.notify_one();
            return Err(Overflow);
        };
        let copy = inner.copy();
        drop(inner);
        if copy.asleep_push > 0 && copy.state.can_push() {
            self.can_push.notify_one();
        }
        Ok(answer)
    }

    /// As [`pop`](Self::pop), and calls `f` with the data and the answer under the same lock.
    ///
    /// Where `f` panics no field changes. `f` must not call this monitor.
    ///
    /// # Errors
    ///
    /// [`Overflow`] where a number would leave 64 bits. Then nothing changes.
    pub fn pop_with<R>(&self, f: impl FnOnce(&mut D, i64) -> R) -> Result<R, Overflow> {
        let mut inner = lock(&self.inner);
        while !inner.state.can_pop() {
            inner.asleep_pop += 1;
            inner = wait(&self.can_pop, inner);
            inner.asleep_pop -= 1;
        }
        let hand = HandOn(&self.can_pop);
        let mut next = inner.state;
        let answer = next.run_pop()?;
        let result = f(&mut inner.data, answer);
        std::mem::forget(hand);
        inner.state = next;
        let copy = inner.copy();
        drop(inner);
        if copy.asleep_push > 0 && copy.state.can_push() {
            self.can_push.notify_one();
        }
        Ok(result)
    }

    /// As [`pop`](Self::pop), but does not wait until `used > 0 || !open`.
    ///
    /// # Errors
    ///
    /// [`Failed::Refused`] where `used > 0 || !open` is false. Then nothing changes.
    ///
    /// [`Failed::Overflow`] where a number would leave 64 bits. Then nothing changes.
    pub fn try_pop(&self) -> Result<i64, Failed> {
        let mut inner = lock(&self.inner);
        if !inner.state.can_pop() {
            return Err(Failed::Refused);
        }
        let Ok(answer) = inner.state.run_pop() else {
            self.can_pop.notify_one();
            return Err(Failed::Overflow);
        };
        let copy = inner.copy();
        drop(inner);
        if copy.asleep_push > 0 && copy.state.can_push() {
            self.can_push.notify_one();
        }
        Ok(answer)
    }

    /// As [`try_pop`](Self::try_pop), and calls `f` with the data and the answer under the same lock.
    ///
    /// Where `f` panics no field changes. `f` must not call this monitor.
    ///
    /// # Errors
    ///
    /// [`Failed::Refused`] where `used > 0 || !open` is false. Then nothing changes.
    ///
    /// [`Failed::Overflow`] where a number would leave 64 bits. Then nothing changes.
    pub fn try_pop_with<R>(&self, f: impl FnOnce(&mut D, i64) -> R) -> Result<R, Failed> {
        let mut inner = lock(&self.inner);
        if !inner.state.can_pop() {
            return Err(Failed::Refused);
        }
        let hand = HandOn(&self.can_pop);
        let mut next = inner.state;
        let answer = next.run_pop()?;
        let result = f(&mut inner.data, answer);
        std::mem::forget(hand);
        inner.state = next;
        let copy = inner.copy();
        drop(inner);
        if copy.asleep_push > 0 && copy.state.can_push() {
            self.can_push.notify_one();
        }
        Ok(result)
    }

    /// As [`pop`](Self::pop), but waits for `used > 0 || !open` no longer than until `end`.
    ///
    /// # Errors
    ///
    /// [`Failed::Refused`] where its time is over and `used > 0 || !open` is false. Then nothing changes.
    ///
    /// [`Failed::Overflow`] where a number would leave 64 bits. Then nothing changes.
    pub fn pop_until(&self, end: Instant) -> Result<i64, Failed> {
        let mut inner = lock(&self.inner);
        while !inner.state.can_pop() {
            let Some(left) = time_left(end) else {
                return Err(Failed::Refused);
            };
            inner.asleep_pop += 1;
            inner = wait_for(&self.can_pop, inner, left);
            inner.asleep_pop -= 1;
        }
        let Ok(answer) = inner.state.run_pop() else {
            self.can_pop.notify_one();
            return Err(Failed::Overflow);
        };
        let copy = inner.copy();
        drop(inner);
        if copy.asleep_push > 0 && copy.state.can_push() {
            self.can_push.notify_one();
        }
        Ok(answer)
    }

    /// As [`pop_until`](Self::pop_until), and calls `f` with the data and the answer under the same lock.
    ///
    /// Where `f` panics no field changes. `f` must not call this monitor.
    ///
    /// # Errors
    ///
    /// [`Failed::Refused`] where its time is over and `used > 0 || !open` is false. Then nothing changes.
    ///
    /// [`Failed::Overflow`] where a number would leave 64 bits. Then nothing changes.
    pub fn pop_until_with<R>(&self, end: Instant, f: impl FnOnce(&mut D, i64) -> R) -> Result<R, Failed> {
        let mut inner = lock(&self.inner);
        while !inner.state.can_pop() {
            let Some(left) = time_left(end) else {
                return Err(Failed::Refused);
            };
            inner.asleep_pop += 1;
            inner = wait_for(&self.can_pop, inner, left);
            inner.asleep_pop -= 1;
        }
        let hand = HandOn(&self.can_pop);
        let mut next = inner.state;
        let answer = next.run_pop()?;
        let result = f(&mut inner.data, answer);
        std::mem::forget(hand);
        inner.state = next;
        let copy = inner.copy();
        drop(inner);
        if copy.asleep_push > 0 && copy.state.can_push() {
            self.can_push.notify_one();
        }
        Ok(result)
    }

    /// As [`pop`](Self::pop), but waits for `used > 0 || !open` no longer than `time`.
    ///
    /// # Errors
    ///
    /// [`Failed::Refused`] where its time is over and `used > 0 || !open` is false. Then nothing changes.
    ///
    /// [`Failed::Overflow`] where a number would leave 64 bits. Then nothing changes.
    pub fn pop_for(&self, time: Duration) -> Result<i64, Failed> {
        let Some(end) = Instant::now().checked_add(time) else {
            return Ok(self.pop()?);
        };
        self.pop_until(end)
    }

    /// As [`pop_for`](Self::pop_for), and calls `f` with the data and the answer under the same lock.
    ///
    /// Where `f` panics no field changes. `f` must not call this monitor.
    ///
    /// # Errors
    ///
    /// [`Failed::Refused`] where its time is over and `used > 0 || !open` is false. Then nothing changes.
    ///
    /// [`Failed::Overflow`] where a number would leave 64 bits. Then nothing changes.
    pub fn pop_for_with<R>(&self, time: Duration, f: impl FnOnce(&mut D, i64) -> R) -> Result<R, Failed> {
        let Some(end) = Instant::now().checked_add(time) else {
            return Ok(self.pop_with(f)?);
        };
        self.pop_until_with(end, f)
    }

    /// Does not wait.
    pub fn close(&self) {
        let mut inner = lock(&self.inner);
        inner.state.run_close();
        let copy = inner.copy();
        drop(inner);
        if copy.asleep_pop > 0 {
            self.can_pop.notify_all();
        }
    }

    /// As [`close`](Self::close), and calls `f` with the data under the same lock.
    ///
    /// Where `f` panics no field changes. `f` must not call this monitor.
    pub fn close_with<R>(&self, f: impl FnOnce(&mut D) -> R) -> R {
        let mut inner = lock(&self.inner);
        let mut next = inner.state;
        next.run_close();
        let result = f(&mut inner.data);
        inner.state = next;
        let copy = inner.copy();
        drop(inner);
        if copy.asleep_pop > 0 {
            self.can_pop.notify_all();
        }
        result
    }

    /// Does not wait.
    pub fn admits_(&self) -> bool {
        let mut inner = lock(&self.inner);
        let answer = inner.state.run_admits_();
        drop(inner);
        answer
    }

    /// As [`admits_`](Self::admits_), and calls `f` with the data and the answer under the same lock.
    ///
    /// Where `f` panics no field changes. `f` must not call this monitor.
    pub fn admits__with<R>(&self, f: impl FnOnce(&mut D, bool) -> R) -> R {
        let mut inner = lock(&self.inner);
        let mut next = inner.state;
        let answer = next.run_admits_();
        let result = f(&mut inner.data, answer);
        inner.state = next;
        drop(inner);
        result
    }
}

impl<D> std::fmt::Debug for Queue<D> {
    fn fmt(&self, f: &mut std::fmt::Formatter<'_>) -> std::fmt::Result {
        let state = match self.inner.try_lock() {
            Ok(inner) => Some(inner.state),
            Err(std::sync::TryLockError::Poisoned(inner)) => Some(inner.into_inner().state),
            Err(std::sync::TryLockError::WouldBlock) => None,
        };
        let mut text = f.debug_struct("Queue");
        match state {
            Some(state) => text.field("state", &state),
            None => text.field("state", &format_args!("<locked>")),
        };
        text.finish_non_exhaustive()
    }
}

/// What the mutex guards: the fields, how many calls sleep on each condition, and the data.
#[allow(dead_code)]
struct Inner<D = ()> {
    state: State,
    asleep_push: usize,
    asleep_pop: usize,
    data: D,
}

impl<D> Inner<D> {
    /// All but the data.
    #[allow(dead_code)]
    fn copy(&self) -> Inner {
        Inner {
            state: self.state,
            asleep_push: self.asleep_push,
            asleep_pop: self.asleep_pop,
            data: (),
        }
    }
}

/// The fields of the monitor.
#[derive(Clone, Copy, Debug)]
#[allow(dead_code)]
struct State {
    cap: i64,
    last_item: i64,
    free: i64,
    used: i64,
    next: i64,
    open: bool,
}

// The guards and bodies, with expressions as the monitor has them.
#[rustfmt::skip]
#[allow(unused, unused_comparisons, clippy::all, clippy::pedantic)]
impl State {
    const fn start(cap: i64, last_item: i64) -> Self {
        Self {
            cap,
            last_item,
            free: cap,
            used: 0,
            next: Queue::FIRST,
            open: true,
        }
    }

    fn can_push(&self) -> bool {
        self.free > 0 && self.next <= self.last_item
    }

    fn run_push(&mut self) -> i64 {
        self.free = self.free - 1;
        self.used = self.used + 1;
        self.next = self.next + 1;
        self.next - 1
    }

    fn can_pop(&self) -> bool {
        self.used > 0 || !self.open
    }

    fn run_pop(&mut self) -> Result<i64, Overflow> {
        let mut next = *self;
        if next.used > 0 {
            next.used = narrow(i128::from(next.used) - 1)?;
            next.free = narrow(i128::from(next.free) + 1)?;
        }
        *self = next;
        Ok(self.used)
    }

    fn run_close(&mut self) {
        self.open = false;
    }

    fn run_admits_(&mut self) -> bool {
        self.free == self.cap
    }
}

/// Locks the monitor, poisoned or not: where a function panicked its block changed no field.
fn lock<D>(inner: &Mutex<Inner<D>>) -> MutexGuard<'_, Inner<D>> {
    inner.lock().unwrap_or_else(PoisonError::into_inner)
}

/// Gives the lock back and waits on the condition, in one step, and takes the lock again.
fn wait<'a, D>(condition: &Condvar, inner: MutexGuard<'a, Inner<D>>) -> MutexGuard<'a, Inner<D>> {
    condition
        .wait(inner)
        .unwrap_or_else(PoisonError::into_inner)
}

/// Wakes one call that waits on the condition, where a block ends that changed nothing.
#[allow(dead_code)]
struct HandOn<'a>(&'a Condvar);

impl Drop for HandOn<'_> {
    fn drop(&mut self) {
        self.0.notify_one();
    }
}

/// As `wait`, but no longer than this.
fn wait_for<'a, D>(
    condition: &Condvar,
    inner: MutexGuard<'a, Inner<D>>,
    left: Duration,
) -> MutexGuard<'a, Inner<D>> {
    condition
        .wait_timeout(inner, left)
        .unwrap_or_else(PoisonError::into_inner)
        .0
}

/// How long it is until then, or `None` where it has come.
fn time_left(end: Instant) -> Option<Duration> {
    end.checked_duration_since(Instant::now())
        .filter(|left| !left.is_zero())
}

/// A number would have left 64 bits.
#[derive(Clone, Copy, Debug, PartialEq, Eq)]
pub struct Overflow;

impl std::fmt::Display for Overflow {
    fn fmt(&self, f: &mut std::fmt::Formatter<'_>) -> std::fmt::Result {
        f.write_str("a number would leave 64 bits")
    }
}

impl std::error::Error for Overflow {}

/// The number, where it has 64 bits.
fn narrow(number: i128) -> Result<i64, Overflow> {
    i64::try_from(number).map_err(|_| Overflow)
}

/// The guard was false, and the call did not wait, or not any longer. Nothing changed.
#[derive(Clone, Copy, Debug, PartialEq, Eq)]
pub struct Refused;

impl std::fmt::Display for Refused {
    fn fmt(&self, f: &mut std::fmt::Formatter<'_>) -> std::fmt::Result {
        f.write_str("the guard is false")
    }
}

impl std::error::Error for Refused {}

/// Why a call that tries, or has a time, has no answer.
#[derive(Clone, Copy, Debug, PartialEq, Eq)]
pub enum Failed {
    /// The guard was false, and the call did not wait, or not any longer. Nothing changed.
    Refused,
    /// A number would have left 64 bits.
    Overflow,
}

impl From<Overflow> for Failed {
    fn from(_: Overflow) -> Self {
        Self::Overflow
    }
}

impl std::fmt::Display for Failed {
    fn fmt(&self, f: &mut std::fmt::Formatter<'_>) -> std::fmt::Result {
        f.write_str(match self {
            Self::Refused => "the guard is false",
            Self::Overflow => "a number would leave 64 bits",
        })
    }
}

impl std::error::Error for Failed {}
