// The monitor `state` as a module of Rust, made by `expresso emit` 0.2.0.
// Change the monitor, and not this file. It wants Rust 1.65 and the edition 2021, or later ones.

use std::sync::{Condvar, Mutex, MutexGuard, PoisonError};
use std::time::{Duration, Instant};

/// Names that mean \*something\* in Rust, as \`self\`, \[\`State\`\] and \<b\>; see https\://doc.rust-lang.org/std.
/// 1\. A number, and 2) another. \_\_init\_\_ \| \~none\~ \& # + - = \\
///
/// \`\`\`
/// assert!(false);
///
/// The monitor `state`. Threads share it by reference. A call waits for its guard, unless it tries.
///
/// Its lock guards data `D` too, for the functions that calls are given.
/**
# Plan

```text
plan state
keep startRead
keep !start_read
condition 1 broadcast: Ok && state > Mutex
condition 2 broadcast: answer * 2 >= narrow - match
condition 3 broadcast: lock && startRead || match_ <= drop
condition 4 broadcast: true
block new: none
block await.1: 3 broadcast
block await.2: 2 broadcast
block try_new_: none
```
*/
#[allow(non_snake_case, non_upper_case_globals)]
#[allow(dead_code, non_camel_case_types)]
#[allow(clippy::doc_markdown, clippy::upper_case_acronyms)]
pub struct State_<D = ()> {
    inner: Mutex<Inner<D>>,
    /// For calls that wait until `Ok && state > Mutex`.
    can_new_: Condvar,
    /// For calls that wait until `answer * 2 >= narrow - match`.
    can_await_: Condvar,
    /// For calls that wait until `lock && startRead || match_ <= drop`.
    can2_await_: Condvar,
}

#[rustfmt::skip]
#[allow(dead_code, clippy::doc_markdown, clippy::style)]
#[allow(non_snake_case, non_upper_case_globals)]
impl State_ {
    /// Least, but not \*the\* least.
    /// \====
    pub const MUTEX: i64 = -3;

    /// The monitor at its start.
    #[must_use]
    pub const fn new() -> Self {
        Self::with_data(())
    }
}

#[rustfmt::skip]
#[allow(dead_code, non_snake_case)]
#[allow(clippy::doc_markdown, clippy::style, clippy::too_many_arguments)]
impl<D> State_<D> {
    /// The monitor at its start, with these data.
    #[must_use]
    pub const fn with_data(data: D) -> Self {
        Self {
            inner: Mutex::new(Inner {
                state: State::START,
                asleep_new_: 0,
                asleep_await_: 0,
                asleep2_await_: 0,
                data,
            }),
            can_new_: Condvar::new(),
            can_await_: Condvar::new(),
            can2_await_: Condvar::new(),
        }
    }

    /// The data, which nobody shares now.
    #[must_use]
    pub fn get_mut(&mut self) -> &mut D {
        &mut self.inner.get_mut().unwrap_or_else(PoisonError::into_inner).data
    }

    /// The data, without the monitor.
    #[must_use]
    pub fn into_inner(self) -> D {
        self.inner.into_inner().unwrap_or_else(PoisonError::into_inner).data
    }

    /// Whether the mutex is poisoned, as where a function panicked that a call was given.
    #[must_use]
    pub fn is_poisoned(&self) -> bool {
        self.inner.is_poisoned()
    }

    /// Takes a state?and more: ??.
    /// // \[x\]: http\://localhost:80
    ///
    /// Waits until `Ok && state > Mutex`.
    ///
    /// # Errors
    ///
    /// [`Overflow`] where a number would leave 64 bits. Then nothing changes.
    pub fn new_(&self, state: i64, ok: bool) -> Result<bool, Overflow> {
        let mut inner = lock(&self.inner);
        while !inner.state.can_new_(state, ok) {
            inner.asleep_new_ += 1;
            inner = wait(&self.can_new_, inner);
            inner.asleep_new_ -= 1;
        }
        let Ok(answer) = inner.state.run_new_(state, ok) else {
            self.can_new_.notify_one();
            return Err(Overflow);
        };
        drop(inner);
        Ok(answer)
    }

    /// As [`new_`](Self::new_), and calls `f` with the data and the answer under the same lock.
    ///
    /// Where `f` panics no field changes. `f` must not call this monitor.
    ///
    /// # Errors
    ///
    /// [`Overflow`] where a number would leave 64 bits. Then nothing changes.
    pub fn new__with<R>(&self, state: i64, ok: bool, f: impl FnOnce(&mut D, bool) -> R) -> Result<R, Overflow> {
        let mut inner = lock(&self.inner);
        while !inner.state.can_new_(state, ok) {
            inner.asleep_new_ += 1;
            inner = wait(&self.can_new_, inner);
            inner.asleep_new_ -= 1;
        }
        let hand = HandOn(&self.can_new_);
        let mut next = inner.state;
        let answer = next.run_new_(state, ok)?;
        let result = f(&mut inner.data, answer);
        std::mem::forget(hand);
        inner.state = next;
        drop(inner);
        Ok(result)
    }

    /// \- Waits: with start_read, a - 1.
    ///
    /// Waits until `answer * 2 >= narrow - match`.
    ///
    /// Then waits until `lock && startRead || match_ <= drop`.
    ///
    /// # Errors
    ///
    /// [`Overflow`] where a number would leave 64 bits. Its block then changes nothing, and no later one runs.
    pub fn await_(&self, answer_: i64, narrow_: i64) -> Result<i64, Overflow> {
        let mut drop_: i64 = 0;
        let mut lock_: bool = true;
        let mut inner = lock(&self.inner);
        while !inner.state.can_await_(answer_, narrow_, drop_, lock_) {
            inner.asleep_await_ += 1;
            inner = wait(&self.can_await_, inner);
            inner.asleep_await_ -= 1;
        }
        let Ok(()) = inner.state.run_await_(answer_, narrow_, &mut drop_, &mut lock_) else {
            self.can_await_.notify_one();
            return Err(Overflow);
        };
        let copy = inner.copy();
        drop(inner);
        if copy.asleep2_await_ > 0 {
            self.can2_await_.notify_all();
        }
        let mut inner = lock(&self.inner);
        while !inner.state.can2_await_(answer_, narrow_, drop_, lock_) {
            inner.asleep2_await_ += 1;
            inner = wait(&self.can2_await_, inner);
            inner.asleep2_await_ -= 1;
        }
        let Ok(answer) = inner.state.run2_await_(answer_, narrow_, &mut drop_, &mut lock_) else {
            self.can2_await_.notify_one();
            return Err(Overflow);
        };
        let copy = inner.copy();
        drop(inner);
        if copy.asleep_await_ > 0 {
            self.can_await_.notify_all();
        }
        Ok(answer)
    }

    /// As [`await_`](Self::await_), and calls `f` with the data and the answer under the same lock, in its last block.
    ///
    /// Where `f` panics that block changes no field. `f` must not call this monitor.
    ///
    /// # Errors
    ///
    /// [`Overflow`] where a number would leave 64 bits. Its block then changes nothing, and no later one runs.
    pub fn await__with<R>(&self, answer_: i64, narrow_: i64, f: impl FnOnce(&mut D, i64) -> R) -> Result<R, Overflow> {
        let mut drop_: i64 = 0;
        let mut lock_: bool = true;
        let mut inner = lock(&self.inner);
        while !inner.state.can_await_(answer_, narrow_, drop_, lock_) {
            inner.asleep_await_ += 1;
            inner = wait(&self.can_await_, inner);
            inner.asleep_await_ -= 1;
        }
        let Ok(()) = inner.state.run_await_(answer_, narrow_, &mut drop_, &mut lock_) else {
            self.can_await_.notify_one();
            return Err(Overflow);
        };
        let copy = inner.copy();
        drop(inner);
        if copy.asleep2_await_ > 0 {
            self.can2_await_.notify_all();
        }
        let mut inner = lock(&self.inner);
        while !inner.state.can2_await_(answer_, narrow_, drop_, lock_) {
            inner.asleep2_await_ += 1;
            inner = wait(&self.can2_await_, inner);
            inner.asleep2_await_ -= 1;
        }
        let hand = HandOn(&self.can2_await_);
        let mut next = inner.state;
        let answer = next.run2_await_(answer_, narrow_, &mut drop_, &mut lock_)?;
        let result = f(&mut inner.data, answer);
        std::mem::forget(hand);
        inner.state = next;
        let copy = inner.copy();
        drop(inner);
        if copy.asleep_await_ > 0 {
            self.can_await_.notify_all();
        }
        Ok(result)
    }

    /// As [`await_`](Self::await_), but does not wait until `answer * 2 >= narrow - match`.
    ///
    /// # Errors
    ///
    /// [`Failed::Refused`] where `answer * 2 >= narrow - match` is false. Then nothing changes.
    ///
    /// [`Failed::Overflow`] where a number would leave 64 bits. Its block then changes nothing, and no later one runs.
    pub fn try_await_(&self, answer_: i64, narrow_: i64) -> Result<i64, Failed> {
        let mut drop_: i64 = 0;
        let mut lock_: bool = true;
        let mut inner = lock(&self.inner);
        if !inner.state.can_await_(answer_, narrow_, drop_, lock_) {
            return Err(Failed::Refused);
        }
        let Ok(()) = inner.state.run_await_(answer_, narrow_, &mut drop_, &mut lock_) else {
            self.can_await_.notify_one();
            return Err(Failed::Overflow);
        };
        let copy = inner.copy();
        drop(inner);
        if copy.asleep2_await_ > 0 {
            self.can2_await_.notify_all();
        }
        let mut inner = lock(&self.inner);
        while !inner.state.can2_await_(answer_, narrow_, drop_, lock_) {
            inner.asleep2_await_ += 1;
            inner = wait(&self.can2_await_, inner);
            inner.asleep2_await_ -= 1;
        }
        let Ok(answer) = inner.state.run2_await_(answer_, narrow_, &mut drop_, &mut lock_) else {
            self.can2_await_.notify_one();
            return Err(Failed::Overflow);
        };
        let copy = inner.copy();
        drop(inner);
        if copy.asleep_await_ > 0 {
            self.can_await_.notify_all();
        }
        Ok(answer)
    }

    /// As [`try_await_`](Self::try_await_), and calls `f` with the data and the answer under the same lock, in its last block.
    ///
    /// Where `f` panics that block changes no field. `f` must not call this monitor.
    ///
    /// # Errors
    ///
    /// [`Failed::Refused`] where `answer * 2 >= narrow - match` is false. Then nothing changes.
    ///
    /// [`Failed::Overflow`] where a number would leave 64 bits. Its block then changes nothing, and no later one runs.
    pub fn try_await__with<R>(&self, answer_: i64, narrow_: i64, f: impl FnOnce(&mut D, i64) -> R) -> Result<R, Failed> {
        let mut drop_: i64 = 0;
        let mut lock_: bool = true;
        let mut inner = lock(&self.inner);
        if !inner.state.can_await_(answer_, narrow_, drop_, lock_) {
            return Err(Failed::Refused);
        }
        let Ok(()) = inner.state.run_await_(answer_, narrow_, &mut drop_, &mut lock_) else {
            self.can_await_.notify_one();
            return Err(Failed::Overflow);
        };
        let copy = inner.copy();
        drop(inner);
        if copy.asleep2_await_ > 0 {
            self.can2_await_.notify_all();
        }
        let mut inner = lock(&self.inner);
        while !inner.state.can2_await_(answer_, narrow_, drop_, lock_) {
            inner.asleep2_await_ += 1;
            inner = wait(&self.can2_await_, inner);
            inner.asleep2_await_ -= 1;
        }
        let hand = HandOn(&self.can2_await_);
        let mut next = inner.state;
        let answer = next.run2_await_(answer_, narrow_, &mut drop_, &mut lock_)?;
        let result = f(&mut inner.data, answer);
        std::mem::forget(hand);
        inner.state = next;
        let copy = inner.copy();
        drop(inner);
        if copy.asleep_await_ > 0 {
            self.can_await_.notify_all();
        }
        Ok(result)
    }

    /// As [`await_`](Self::await_), but waits for `answer * 2 >= narrow - match` no longer than until `end`.
    ///
    /// # Errors
    ///
    /// [`Failed::Refused`] where its time is over and `answer * 2 >= narrow - match` is false. Then nothing changes.
    ///
    /// [`Failed::Overflow`] where a number would leave 64 bits. Its block then changes nothing, and no later one runs.
    pub fn await__until(&self, answer_: i64, narrow_: i64, end: Instant) -> Result<i64, Failed> {
        let mut drop_: i64 = 0;
        let mut lock_: bool = true;
        let mut inner = lock(&self.inner);
        while !inner.state.can_await_(answer_, narrow_, drop_, lock_) {
            let Some(left) = time_left(end) else {
                return Err(Failed::Refused);
            };
            inner.asleep_await_ += 1;
            inner = wait_for(&self.can_await_, inner, left);
            inner.asleep_await_ -= 1;
        }
        let Ok(()) = inner.state.run_await_(answer_, narrow_, &mut drop_, &mut lock_) else {
            self.can_await_.notify_one();
            return Err(Failed::Overflow);
        };
        let copy = inner.copy();
        drop(inner);
        if copy.asleep2_await_ > 0 {
            self.can2_await_.notify_all();
        }
        let mut inner = lock(&self.inner);
        while !inner.state.can2_await_(answer_, narrow_, drop_, lock_) {
            inner.asleep2_await_ += 1;
            inner = wait(&self.can2_await_, inner);
            inner.asleep2_await_ -= 1;
        }
        let Ok(answer) = inner.state.run2_await_(answer_, narrow_, &mut drop_, &mut lock_) else {
            self.can2_await_.notify_one();
            return Err(Failed::Overflow);
        };
        let copy = inner.copy();
        drop(inner);
        if copy.asleep_await_ > 0 {
            self.can_await_.notify_all();
        }
        Ok(answer)
    }

    /// As [`await__until`](Self::await__until), and calls `f` with the data and the answer under the same lock, in its last block.
    ///
    /// Where `f` panics that block changes no field. `f` must not call this monitor.
    ///
    /// # Errors
    ///
    /// [`Failed::Refused`] where its time is over and `answer * 2 >= narrow - match` is false. Then nothing changes.
    ///
    /// [`Failed::Overflow`] where a number would leave 64 bits. Its block then changes nothing, and no later one runs.
    pub fn await__until_with<R>(&self, answer_: i64, narrow_: i64, end: Instant, f: impl FnOnce(&mut D, i64) -> R) -> Result<R, Failed> {
        let mut drop_: i64 = 0;
        let mut lock_: bool = true;
        let mut inner = lock(&self.inner);
        while !inner.state.can_await_(answer_, narrow_, drop_, lock_) {
            let Some(left) = time_left(end) else {
                return Err(Failed::Refused);
            };
            inner.asleep_await_ += 1;
            inner = wait_for(&self.can_await_, inner, left);
            inner.asleep_await_ -= 1;
        }
        let Ok(()) = inner.state.run_await_(answer_, narrow_, &mut drop_, &mut lock_) else {
            self.can_await_.notify_one();
            return Err(Failed::Overflow);
        };
        let copy = inner.copy();
        drop(inner);
        if copy.asleep2_await_ > 0 {
            self.can2_await_.notify_all();
        }
        let mut inner = lock(&self.inner);
        while !inner.state.can2_await_(answer_, narrow_, drop_, lock_) {
            inner.asleep2_await_ += 1;
            inner = wait(&self.can2_await_, inner);
            inner.asleep2_await_ -= 1;
        }
        let hand = HandOn(&self.can2_await_);
        let mut next = inner.state;
        let answer = next.run2_await_(answer_, narrow_, &mut drop_, &mut lock_)?;
        let result = f(&mut inner.data, answer);
        std::mem::forget(hand);
        inner.state = next;
        let copy = inner.copy();
        drop(inner);
        if copy.asleep_await_ > 0 {
            self.can_await_.notify_all();
        }
        Ok(result)
    }

    /// As [`await_`](Self::await_), but waits for `answer * 2 >= narrow - match` no longer than `time`.
    ///
    /// # Errors
    ///
    /// [`Failed::Refused`] where its time is over and `answer * 2 >= narrow - match` is false. Then nothing changes.
    ///
    /// [`Failed::Overflow`] where a number would leave 64 bits. Its block then changes nothing, and no later one runs.
    pub fn await__for(&self, answer_: i64, narrow_: i64, time: Duration) -> Result<i64, Failed> {
        let Some(end) = Instant::now().checked_add(time) else {
            return Ok(self.await_(answer_, narrow_)?);
        };
        self.await__until(answer_, narrow_, end)
    }

    /// As [`await__for`](Self::await__for), and calls `f` with the data and the answer under the same lock, in its last block.
    ///
    /// Where `f` panics that block changes no field. `f` must not call this monitor.
    ///
    /// # Errors
    ///
    /// [`Failed::Refused`] where its time is over and `answer * 2 >= narrow - match` is false. Then nothing changes.
    ///
    /// [`Failed::Overflow`] where a number would leave 64 bits. Its block then changes nothing, and no later one runs.
    pub fn await__for_with<R>(&self, answer_: i64, narrow_: i64, time: Duration, f: impl FnOnce(&mut D, i64) -> R) -> Result<R, Failed> {
        let Some(end) = Instant::now().checked_add(time) else {
            return Ok(self.await__with(answer_, narrow_, f)?);
        };
        self.await__until_with(answer_, narrow_, end, f)
    }

    /// Does not wait.
    pub fn try_new_(&self) {
        let mut inner = lock(&self.inner);
        inner.state.run_try_new_();
        drop(inner);
    }

    /// As [`try_new_`](Self::try_new_), and calls `f` with the data under the same lock.
    ///
    /// Where `f` panics no field changes. `f` must not call this monitor.
    pub fn try_new__with<R>(&self, f: impl FnOnce(&mut D) -> R) -> R {
        let mut inner = lock(&self.inner);
        let mut next = inner.state;
        next.run_try_new_();
        let result = f(&mut inner.data);
        inner.state = next;
        drop(inner);
        result
    }
}

impl Default for State_ {
    fn default() -> Self {
        Self::new()
    }
}

impl<D> std::fmt::Debug for State_<D> {
    fn fmt(&self, f: &mut std::fmt::Formatter<'_>) -> std::fmt::Result {
        let state = match self.inner.try_lock() {
            Ok(inner) => Some(inner.state),
            Err(std::sync::TryLockError::Poisoned(inner)) => Some(inner.into_inner().state),
            Err(std::sync::TryLockError::WouldBlock) => None,
        };
        let mut text = f.debug_struct("State_");
        match state {
            Some(state) => text.field("state", &state),
            None => text.field("state", &format_args!("<locked>")),
        };
        text.finish_non_exhaustive()
    }
}

/// What the mutex guards: the fields, how many calls sleep on each condition, and the data.
#[allow(dead_code)]
#[allow(non_snake_case, non_upper_case_globals)]
struct Inner<D = ()> {
    state: State,
    asleep_new_: usize,
    asleep_await_: usize,
    asleep2_await_: usize,
    data: D,
}

impl<D> Inner<D> {
    /// All but the data.
    #[allow(dead_code)]
    fn copy(&self) -> Inner {
        Inner {
            state: self.state,
            asleep_new_: self.asleep_new_,
            asleep_await_: self.asleep_await_,
            asleep2_await_: self.asleep2_await_,
            data: (),
        }
    }
}

/// The fields of the monitor.
#[derive(Clone, Copy, Debug)]
#[allow(dead_code)]
#[allow(non_snake_case, non_upper_case_globals)]
struct State {
    self_: i64,
    next: i64,
    startRead: bool,
    start_read: bool,
    match_: i64,
    match__: i64,
}

// The guards and bodies, with expressions as the monitor has them.
#[rustfmt::skip]
#[allow(unused, unused_comparisons, clippy::all, clippy::pedantic)]
#[allow(non_snake_case, non_upper_case_globals)]
impl State {
    const START: Self = Self {
        self_: 0,
        next: 0,
        startRead: true,
        start_read: false,
        match_: 0,
        match__: 0,
    };

    fn can_new_(&self, state: i64, ok: bool) -> bool {
        ok && state > State_::MUTEX
    }

    fn run_new_(&mut self, state: i64, ok: bool) -> Result<bool, Overflow> {
        let mut next = *self;
        next.self_ = narrow(i128::from(next.self_) + i128::from(state))?;
        next.next = narrow(i128::from(state) * 2)?;
        *self = next;
        Ok(!ok)
    }

    fn can_await_(&self, answer_: i64, narrow_: i64, drop_: i64, lock_: bool) -> bool {
        i128::from(answer_) * 2 >= i128::from(narrow_) - i128::from(self.match_)
    }

    fn run_await_(&mut self, answer_: i64, narrow_: i64, drop_: &mut i64, lock_: &mut bool) -> Result<(), Overflow> {
        *drop_ = narrow(i128::from(answer_) - i128::from(narrow_))?;
        *lock_ = *drop_ == 0 || 1_i128 < 2_i128;
        self.match__ = *drop_;
        Ok(())
    }

    fn can2_await_(&self, answer_: i64, narrow_: i64, drop_: i64, lock_: bool) -> bool {
        lock_ && self.startRead || self.match__ <= drop_
    }

    fn run2_await_(&mut self, answer_: i64, narrow_: i64, drop_: &mut i64, lock_: &mut bool) -> Result<i64, Overflow> {
        let mut next = *self;
        if *lock_ {
            next.match_ = narrow(-i128::from(*drop_))?;
        } else {
            next.self_ = narrow(-(i128::from(*drop_) + 1))?;
            next.next = narrow(i128::from(next.next) - i128::from(next.self_))?;
        }
        let answer = narrow(i128::from(*drop_) - 1)?;
        *self = next;
        Ok(answer)
    }

    fn run_try_new_(&mut self) {
        self.self_ = 0;
    }
}

/// Locks the monitor, poisoned or not: where a function panicked its block changed no field.
fn lock<D>(inner: &Mutex<Inner<D>>) -> MutexGuard<'_, Inner<D>> {
    inner.lock().unwrap_or_else(PoisonError::into_inner)
}

/// Gives the lock back and waits on the condition, in one step, and takes the lock again.
fn wait<'a, D>(condition: &Condvar, inner: MutexGuard<'a, Inner<D>>) -> MutexGuard<'a, Inner<D>> {
    condition
        .wait(inner)
        .unwrap_or_else(PoisonError::into_inner)
}

/// Wakes one call that waits on the condition, where a block ends that changed nothing.
#[allow(dead_code)]
struct HandOn<'a>(&'a Condvar);

impl Drop for HandOn<'_> {
    fn drop(&mut self) {
        self.0.notify_one();
    }
}

/// As `wait`, but no longer than this.
fn wait_for<'a, D>(
    condition: &Condvar,
    inner: MutexGuard<'a, Inner<D>>,
    left: Duration,
) -> MutexGuard<'a, Inner<D>> {
    condition
        .wait_timeout(inner, left)
        .unwrap_or_else(PoisonError::into_inner)
        .0
}

/// How long it is until then, or `None` where it has come.
fn time_left(end: Instant) -> Option<Duration> {
    end.checked_duration_since(Instant::now())
        .filter(|left| !left.is_zero())
}

/// A number would have left 64 bits.
#[derive(Clone, Copy, Debug, PartialEq, Eq)]
pub struct Overflow;

impl std::fmt::Display for Overflow {
    fn fmt(&self, f: &mut std::fmt::Formatter<'_>) -> std::fmt::Result {
        f.write_str("a number would leave 64 bits")
    }
}

impl std::error::Error for Overflow {}

/// The number, where it has 64 bits.
fn narrow(number: i128) -> Result<i64, Overflow> {
    i64::try_from(number).map_err(|_| Overflow)
}

/// Why a call that tries, or has a time, has no answer.
#[derive(Clone, Copy, Debug, PartialEq, Eq)]
pub enum Failed {
    /// The guard was false, and the call did not wait, or not any longer. Nothing changed.
    Refused,
    /// A number would have left 64 bits.
    Overflow,
}

impl From<Overflow> for Failed {
    fn from(_: Overflow) -> Self {
        Self::Overflow
    }
}

impl std::fmt::Display for Failed {
    fn fmt(&self, f: &mut std::fmt::Formatter<'_>) -> std::fmt::Result {
        f.write_str(match self {
            Self::Refused => "the guard is false",
            Self::Overflow => "a number would leave 64 bits",
        })
    }
}

impl std::error::Error for Failed {}
