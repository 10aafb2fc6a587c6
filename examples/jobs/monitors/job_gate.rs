// The monitor `JobGate` as a module of Rust, made by `expresso emit` 0.2.0.
// Change the monitor, and not this file. It wants Rust 1.65 and the edition 2021, or later ones.

use std::sync::{Condvar, Mutex, MutexGuard, PoisonError};
use std::time::{Duration, Instant};

/// How many jobs a queue has, and who may come in. After \`close\` nothing is pushed any more; what is
/// in the queue is still popped.
///
/// The monitor `JobGate`. Threads share it by reference. A call waits for its guard, unless it tries.
///
/// Its lock guards data `D` too, for the functions that calls are given.
/**
# Plan

```text
plan JobGate
keep count >= 0
keep count <= 8
condition 1 signal: count < CAP || !open
condition 2 signal: count > 0 || !open
condition 3 broadcast: true
block push: 2 signal
block pop: 1 signal
block close: 1 broadcast, 2 broadcast
block look: none
```
*/
#[allow(dead_code, non_camel_case_types)]
#[allow(clippy::doc_markdown, clippy::upper_case_acronyms)]
pub struct JobGate<D = ()> {
    inner: Mutex<Inner<D>>,
    /// For calls that wait until `count < CAP || !open`.
    can_push: Condvar,
    /// For calls that wait until `count > 0 || !open`.
    can_pop: Condvar,
}

#[rustfmt::skip]
#[allow(dead_code, clippy::doc_markdown, clippy::style)]
impl JobGate {
    /// The constant `CAP`.
    pub const CAP: i64 = 8;

    /// The monitor at its start.
    #[must_use]
    pub const fn new() -> Self {
        Self::with_data(())
    }
}

#[rustfmt::skip]
#[allow(dead_code, non_snake_case)]
#[allow(clippy::doc_markdown, clippy::style, clippy::too_many_arguments)]
impl<D> JobGate<D> {
    /// The monitor at its start, with these data.
    #[must_use]
    pub const fn with_data(data: D) -> Self {
        Self {
            inner: Mutex::new(Inner {
                state: State::START,
                asleep_push: 0,
                asleep_pop: 0,
                data,
            }),
            can_push: Condvar::new(),
            can_pop: Condvar::new(),
        }
    }

    /// The data, which nobody shares now.
    #[must_use]
    pub fn get_mut(&mut self) -> &mut D {
        &mut self.inner.get_mut().unwrap_or_else(PoisonError::into_inner).data
    }

    /// The data, without the monitor.
    #[must_use]
    pub fn into_inner(self) -> D {
        self.inner.into_inner().unwrap_or_else(PoisonError::into_inner).data
    }

    /// Whether the mutex is poisoned, as where a function panicked that a call was given.
    #[must_use]
    pub fn is_poisoned(&self) -> bool {
        self.inner.is_poisoned()
    }

    /// Waits until `count < CAP || !open`.
    pub fn push(&self) -> bool {
        let mut inner = lock(&self.inner);
        while !inner.state.can_push() {
            inner.asleep_push += 1;
            inner = wait(&self.can_push, inner);
            inner.asleep_push -= 1;
        }
        let answer = inner.state.run_push();
        let copy = inner.copy();
        drop(inner);
        if copy.asleep_pop > 0 {
            self.can_pop.notify_one();
        }
        answer
    }

    /// As [`push`](Self::push), and calls `f` with the data and the answer under the same lock.
    ///
    /// Where `f` panics no field changes. `f` must not call this monitor.
    pub fn push_with<R>(&self, f: impl FnOnce(&mut D, bool) -> R) -> R {
        let mut inner = lock(&self.inner);
        while !inner.state.can_push() {
            inner.asleep_push += 1;
            inner = wait(&self.can_push, inner);
            inner.asleep_push -= 1;
        }
        let hand = HandOn(&self.can_push);
        let mut next = inner.state;
        let answer = next.run_push();
        let result = f(&mut inner.data, answer);
        std::mem::forget(hand);
        inner.state = next;
        let copy = inner.copy();
        drop(inner);
        if copy.asleep_pop > 0 {
            self.can_pop.notify_one();
        }
        result
    }

    /// As [`push`](Self::push), but does not wait until `count < CAP || !open`.
    ///
    /// # Errors
    ///
    /// [`Refused`] where `count < CAP || !open` is false. Then nothing changes.
    pub fn try_push(&self) -> Result<bool, Refused> {
        let mut inner = lock(&self.inner);
        if !inner.state.can_push() {
            return Err(Refused);
        }
        let answer = inner.state.run_push();
        let copy = inner.copy();
        drop(inner);
        if copy.asleep_pop > 0 {
            self.can_pop.notify_one();
        }
        Ok(answer)
    }

    /// As [`try_push`](Self::try_push), and calls `f` with the data and the answer under the same lock.
    ///
    /// Where `f` panics no field changes. `f` must not call this monitor.
    ///
    /// # Errors
    ///
    /// [`Refused`] where `count < CAP || !open` is false. Then nothing changes.
    pub fn try_push_with<R>(&self, f: impl FnOnce(&mut D, bool) -> R) -> Result<R, Refused> {
        let mut inner = lock(&self.inner);
        if !inner.state.can_push() {
            return Err(Refused);
        }
        let hand = HandOn(&self.can_push);
        let mut next = inner.state;
        let answer = next.run_push();
        let result = f(&mut inner.data, answer);
        std::mem::forget(hand);
        inner.state = next;
        let copy = inner.copy();
        drop(inner);
        if copy.asleep_pop > 0 {
            self.can_pop.notify_one();
        }
        Ok(result)
    }

    /// As [`push`](Self::push), but waits for `count < CAP || !open` no longer than until `end`.
    ///
    /// # Errors
    ///
    /// [`Refused`] where its time is over and `count < CAP || !open` is false. Then nothing changes.
    pub fn push_until(&self, end: Instant) -> Result<bool, Refused> {
        let mut inner = lock(&self.inner);
        while !inner.state.can_push() {
            let Some(left) = time_left(end) else {
                return Err(Refused);
            };
            inner.asleep_push += 1;
            inner = wait_for(&self.can_push, inner, left);
            inner.asleep_push -= 1;
        }
        let answer = inner.state.run_push();
        let copy = inner.copy();
        drop(inner);
        if copy.asleep_pop > 0 {
            self.can_pop.notify_one();
        }
        Ok(answer)
    }

    /// As [`push_until`](Self::push_until), and calls `f` with the data and the answer under the same lock.
    ///
    /// Where `f` panics no field changes. `f` must not call this monitor.
    ///
    /// # Errors
    ///
    /// [`Refused`] where its time is over and `count < CAP || !open` is false. Then nothing changes.
    pub fn push_until_with<R>(&self, end: Instant, f: impl FnOnce(&mut D, bool) -> R) -> Result<R, Refused> {
        let mut inner = lock(&self.inner);
        while !inner.state.can_push() {
            let Some(left) = time_left(end) else {
                return Err(Refused);
            };
            inner.asleep_push += 1;
            inner = wait_for(&self.can_push, inner, left);
            inner.asleep_push -= 1;
        }
        let hand = HandOn(&self.can_push);
        let mut next = inner.state;
        let answer = next.run_push();
        let result = f(&mut inner.data, answer);
        std::mem::forget(hand);
        inner.state = next;
        let copy = inner.copy();
        drop(inner);
        if copy.asleep_pop > 0 {
            self.can_pop.notify_one();
        }
        Ok(result)
    }

    /// As [`push`](Self::push), but waits for `count < CAP || !open` no longer than `time`.
    ///
    /// # Errors
    ///
    /// [`Refused`] where its time is over and `count < CAP || !open` is false. Then nothing changes.
    pub fn push_for(&self, time: Duration) -> Result<bool, Refused> {
        let Some(end) = Instant::now().checked_add(time) else {
            return Ok(self.push());
        };
        self.push_until(end)
    }

    /// As [`push_for`](Self::push_for), and calls `f` with the data and the answer under the same lock.
    ///
    /// Where `f` panics no field changes. `f` must not call this monitor.
    ///
    /// # Errors
    ///
    /// [`Refused`] where its time is over and `count < CAP || !open` is false. Then nothing changes.
    pub fn push_for_with<R>(&self, time: Duration, f: impl FnOnce(&mut D, bool) -> R) -> Result<R, Refused> {
        let Some(end) = Instant::now().checked_add(time) else {
            return Ok(self.push_with(f));
        };
        self.push_until_with(end, f)
    }

    /// Waits until `count > 0 || !open`.
    pub fn pop(&self) -> bool {
        let mut found: bool = false;
        let mut inner = lock(&self.inner);
        while !inner.state.can_pop() {
            inner.asleep_pop += 1;
            inner = wait(&self.can_pop, inner);
            inner.asleep_pop -= 1;
        }
        let answer = inner.state.run_pop(&mut found);
        let copy = inner.copy();
        drop(inner);
        if copy.asleep_push > 0 {
            self.can_push.notify_one();
        }
        answer
    }

    /// As [`pop`](Self::pop), and calls `f` with the data and the answer under the same lock.
    ///
    /// Where `f` panics no field changes. `f` must not call this monitor.
    pub fn pop_with<R>(&self, f: impl FnOnce(&mut D, bool) -> R) -> R {
        let mut found: bool = false;
        let mut inner = lock(&self.inner);
        while !inner.state.can_pop() {
            inner.asleep_pop += 1;
            inner = wait(&self.can_pop, inner);
            inner.asleep_pop -= 1;
        }
        let hand = HandOn(&self.can_pop);
        let mut next = inner.state;
        let answer = next.run_pop(&mut found);
        let result = f(&mut inner.data, answer);
        std::mem::forget(hand);
        inner.state = next;
        let copy = inner.copy();
        drop(inner);
        if copy.asleep_push > 0 {
            self.can_push.notify_one();
        }
        result
    }

    /// As [`pop`](Self::pop), but does not wait until `count > 0 || !open`.
    ///
    /// # Errors
    ///
    /// [`Refused`] where `count > 0 || !open` is false. Then nothing changes.
    pub fn try_pop(&self) -> Result<bool, Refused> {
        let mut found: bool = false;
        let mut inner = lock(&self.inner);
        if !inner.state.can_pop() {
            return Err(Refused);
        }
        let answer = inner.state.run_pop(&mut found);
        let copy = inner.copy();
        drop(inner);
        if copy.asleep_push > 0 {
            self.can_push.notify_one();
        }
        Ok(answer)
    }

    /// As [`try_pop`](Self::try_pop), and calls `f` with the data and the answer under the same lock.
    ///
    /// Where `f` panics no field changes. `f` must not call this monitor.
    ///
    /// # Errors
    ///
    /// [`Refused`] where `count > 0 || !open` is false. Then nothing changes.
    pub fn try_pop_with<R>(&self, f: impl FnOnce(&mut D, bool) -> R) -> Result<R, Refused> {
        let mut found: bool = false;
        let mut inner = lock(&self.inner);
        if !inner.state.can_pop() {
            return Err(Refused);
        }
        let hand = HandOn(&self.can_pop);
        let mut next = inner.state;
        let answer = next.run_pop(&mut found);
        let result = f(&mut inner.data, answer);
        std::mem::forget(hand);
        inner.state = next;
        let copy = inner.copy();
        drop(inner);
        if copy.asleep_push > 0 {
            self.can_push.notify_one();
        }
        Ok(result)
    }

    /// As [`pop`](Self::pop), but waits for `count > 0 || !open` no longer than until `end`.
    ///
    /// # Errors
    ///
    /// [`Refused`] where its time is over and `count > 0 || !open` is false. Then nothing changes.
    pub fn pop_until(&self, end: Instant) -> Result<bool, Refused> {
        let mut found: bool = false;
        let mut inner = lock(&self.inner);
        while !inner.state.can_pop() {
            let Some(left) = time_left(end) else {
                return Err(Refused);
            };
            inner.asleep_pop += 1;
            inner = wait_for(&self.can_pop, inner, left);
            inner.asleep_pop -= 1;
        }
        let answer = inner.state.run_pop(&mut found);
        let copy = inner.copy();
        drop(inner);
        if copy.asleep_push > 0 {
            self.can_push.notify_one();
        }
        Ok(answer)
    }

    /// As [`pop_until`](Self::pop_until), and calls `f` with the data and the answer under the same lock.
    ///
    /// Where `f` panics no field changes. `f` must not call this monitor.
    ///
    /// # Errors
    ///
    /// [`Refused`] where its time is over and `count > 0 || !open` is false. Then nothing changes.
    pub fn pop_until_with<R>(&self, end: Instant, f: impl FnOnce(&mut D, bool) -> R) -> Result<R, Refused> {
        let mut found: bool = false;
        let mut inner = lock(&self.inner);
        while !inner.state.can_pop() {
            let Some(left) = time_left(end) else {
                return Err(Refused);
            };
            inner.asleep_pop += 1;
            inner = wait_for(&self.can_pop, inner, left);
            inner.asleep_pop -= 1;
        }
        let hand = HandOn(&self.can_pop);
        let mut next = inner.state;
        let answer = next.run_pop(&mut found);
        let result = f(&mut inner.data, answer);
        std::mem::forget(hand);
        inner.state = next;
        let copy = inner.copy();
        drop(inner);
        if copy.asleep_push > 0 {
            self.can_push.notify_one();
        }
        Ok(result)
    }

    /// As [`pop`](Self::pop), but waits for `count > 0 || !open` no longer than `time`.
    ///
    /// # Errors
    ///
    /// [`Refused`] where its time is over and `count > 0 || !open` is false. Then nothing changes.
    pub fn pop_for(&self, time: Duration) -> Result<bool, Refused> {
        let Some(end) = Instant::now().checked_add(time) else {
            return Ok(self.pop());
        };
        self.pop_until(end)
    }

    /// As [`pop_for`](Self::pop_for), and calls `f` with the data and the answer under the same lock.
    ///
    /// Where `f` panics no field changes. `f` must not call this monitor.
    ///
    /// # Errors
    ///
    /// [`Refused`] where its time is over and `count > 0 || !open` is false. Then nothing changes.
    pub fn pop_for_with<R>(&self, time: Duration, f: impl FnOnce(&mut D, bool) -> R) -> Result<R, Refused> {
        let Some(end) = Instant::now().checked_add(time) else {
            return Ok(self.pop_with(f));
        };
        self.pop_until_with(end, f)
    }

    /// Does not wait.
    pub fn close(&self) {
        let mut inner = lock(&self.inner);
        inner.state.run_close();
        let copy = inner.copy();
        drop(inner);
        if copy.asleep_push > 0 {
            self.can_push.notify_all();
        }
        if copy.asleep_pop > 0 {
            self.can_pop.notify_all();
        }
    }

    /// As [`close`](Self::close), and calls `f` with the data under the same lock.
    ///
    /// Where `f` panics no field changes. `f` must not call this monitor.
    pub fn close_with<R>(&self, f: impl FnOnce(&mut D) -> R) -> R {
        let mut inner = lock(&self.inner);
        let mut next = inner.state;
        next.run_close();
        let result = f(&mut inner.data);
        inner.state = next;
        let copy = inner.copy();
        drop(inner);
        if copy.asleep_push > 0 {
            self.can_push.notify_all();
        }
        if copy.asleep_pop > 0 {
            self.can_pop.notify_all();
        }
        result
    }

    /// Does not wait.
    pub fn look(&self) {
        let mut inner = lock(&self.inner);
        inner.state.run_look();
        drop(inner);
    }

    /// As [`look`](Self::look), and calls `f` with the data under the same lock.
    ///
    /// Where `f` panics no field changes. `f` must not call this monitor.
    pub fn look_with<R>(&self, f: impl FnOnce(&mut D) -> R) -> R {
        let mut inner = lock(&self.inner);
        let mut next = inner.state;
        next.run_look();
        let result = f(&mut inner.data);
        inner.state = next;
        drop(inner);
        result
    }
}

impl Default for JobGate {
    fn default() -> Self {
        Self::new()
    }
}

impl<D> std::fmt::Debug for JobGate<D> {
    fn fmt(&self, f: &mut std::fmt::Formatter<'_>) -> std::fmt::Result {
        let state = match self.inner.try_lock() {
            Ok(inner) => Some(inner.state),
            Err(std::sync::TryLockError::Poisoned(inner)) => Some(inner.into_inner().state),
            Err(std::sync::TryLockError::WouldBlock) => None,
        };
        let mut text = f.debug_struct("JobGate");
        match state {
            Some(state) => text.field("state", &state),
            None => text.field("state", &format_args!("<locked>")),
        };
        text.finish_non_exhaustive()
    }
}

/// What the mutex guards: the fields, how many calls sleep on each condition, and the data.
#[allow(dead_code)]
struct Inner<D = ()> {
    state: State,
    asleep_push: usize,
    asleep_pop: usize,
    data: D,
}

impl<D> Inner<D> {
    /// All but the data.
    #[allow(dead_code)]
    fn copy(&self) -> Inner {
        Inner {
            state: self.state,
            asleep_push: self.asleep_push,
            asleep_pop: self.asleep_pop,
            data: (),
        }
    }
}

/// The fields of the monitor.
#[derive(Clone, Copy, Debug)]
#[allow(dead_code)]
struct State {
    count: i64,
    open: bool,
}

// The guards and bodies, with expressions as the monitor has them.
#[rustfmt::skip]
#[allow(unused, unused_comparisons, clippy::all, clippy::pedantic)]
impl State {
    const START: Self = Self {
        count: 0,
        open: true,
    };

    fn can_push(&self) -> bool {
        self.count < JobGate::CAP || !self.open
    }

    fn run_push(&mut self) -> bool {
        if self.open {
            self.count = self.count + 1;
        }
        self.open
    }

    fn can_pop(&self) -> bool {
        self.count > 0 || !self.open
    }

    fn run_pop(&mut self, found: &mut bool) -> bool {
        *found = self.count > 0;
        if *found {
            self.count = self.count - 1;
        }
        *found
    }

    fn run_close(&mut self) {
        self.open = false;
    }

    fn run_look(&mut self) {}
}

/// Locks the monitor, poisoned or not: where a function panicked its block changed no field.
fn lock<D>(inner: &Mutex<Inner<D>>) -> MutexGuard<'_, Inner<D>> {
    inner.lock().unwrap_or_else(PoisonError::into_inner)
}

/// Gives the lock back and waits on the condition, in one step, and takes the lock again.
fn wait<'a, D>(condition: &Condvar, inner: MutexGuard<'a, Inner<D>>) -> MutexGuard<'a, Inner<D>> {
    condition
        .wait(inner)
        .unwrap_or_else(PoisonError::into_inner)
}

/// Wakes one call that waits on the condition, where a block ends that changed nothing.
#[allow(dead_code)]
struct HandOn<'a>(&'a Condvar);

impl Drop for HandOn<'_> {
    fn drop(&mut self) {
        self.0.notify_one();
    }
}

/// As `wait`, but no longer than this.
fn wait_for<'a, D>(
    condition: &Condvar,
    inner: MutexGuard<'a, Inner<D>>,
    left: Duration,
) -> MutexGuard<'a, Inner<D>> {
    condition
        .wait_timeout(inner, left)
        .unwrap_or_else(PoisonError::into_inner)
        .0
}

/// How long it is until then, or `None` where it has come.
fn time_left(end: Instant) -> Option<Duration> {
    end.checked_duration_since(Instant::now())
        .filter(|left| !left.is_zero())
}

/// The guard was false, and the call did not wait, or not any longer. Nothing changed.
#[derive(Clone, Copy, Debug, PartialEq, Eq)]
pub struct Refused;

impl std::fmt::Display for Refused {
    fn fmt(&self, f: &mut std::fmt::Formatter<'_>) -> std::fmt::Result {
        f.write_str("the guard is false")
    }
}

impl std::error::Error for Refused {}
