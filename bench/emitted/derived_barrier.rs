// The monitor `Barrier` as a module of Rust, made by `expresso emit` 0.2.0.
// Change the monitor, and not this file. It wants Rust 1.65 and the edition 2021, or later ones.

use std::sync::{Condvar, Mutex, MutexGuard, PoisonError};
use std::time::{Duration, Instant};

/// The monitor `Barrier`. Threads share it by reference. A call waits for its guard, unless it tries.
///
/// Its lock guards data `D` too, for the functions that calls are given.
/**
# Plan

```text
plan Barrier
keep waiting >= 0
keep waiting <= 3
keep waiting <= 4
keep waiting >= -1
condition 1 signal: !open && waiting < PARTIES
condition 2 signal: open && waiting > 0
condition 3 signal: waiting == PARTIES && open
condition 4 broadcast: waiting == 0 && !open
block arrive: 2 broadcast tested, 3 signal tested
block leave: 1 broadcast tested, 4 broadcast tested
block dismiss: 1 broadcast, 4 broadcast
block watch: none
```
*/
#[allow(dead_code, non_camel_case_types)]
#[allow(clippy::doc_markdown, clippy::upper_case_acronyms)]
pub struct Barrier<D = ()> {
    inner: Mutex<Inner<D>>,
    /// For calls that wait until `!open && waiting < PARTIES`.
    can_arrive: Condvar,
    /// For calls that wait until `open && waiting > 0`.
    can_leave: Condvar,
    /// For calls that wait until `waiting == PARTIES && open`.
    can_dismiss: Condvar,
    /// For calls that wait until `waiting == 0 && !open`.
    can_watch: Condvar,
}

#[rustfmt::skip]
#[allow(dead_code, clippy::doc_markdown, clippy::style)]
impl Barrier {
    /// The constant `PARTIES`.
    pub const PARTIES: i64 = 3;

    /// The monitor at its start.
    #[must_use]
    pub const fn new() -> Self {
        Self::with_data(())
    }
}

#[rustfmt::skip]
#[allow(dead_code, non_snake_case)]
#[allow(clippy::doc_markdown, clippy::style, clippy::too_many_arguments)]
impl<D> Barrier<D> {
    /// The monitor at its start, with these data.
    #[must_use]
    pub const fn with_data(data: D) -> Self {
        Self {
            inner: Mutex::new(Inner {
                state: State::START,
                asleep_arrive: 0,
                asleep_leave: 0,
                asleep_dismiss: 0,
                asleep_watch: 0,
                data,
            }),
            can_arrive: Condvar::new(),
            can_leave: Condvar::new(),
            can_dismiss: Condvar::new(),
            can_watch: Condvar::new(),
        }
    }

    /// The data, which nobody shares now.
    #[must_use]
    pub fn get_mut(&mut self) -> &mut D {
        &mut self.inner.get_mut().unwrap_or_else(PoisonError::into_inner).data
    }

    /// The data, without the monitor.
    #[must_use]
    pub fn into_inner(self) -> D {
        self.inner.into_inner().unwrap_or_else(PoisonError::into_inner).data
    }

    /// Whether the mutex is poisoned, as where a function panicked that a call was given.
    #[must_use]
    pub fn is_poisoned(&self) -> bool {
        self.inner.is_poisoned()
    }

    /// Waits until `!open && waiting < PARTIES`.
    pub fn arrive(&self) -> i64 {
        let mut inner = lock(&self.inner);
        while !inner.state.can_arrive() {
            inner.asleep_arrive += 1;
            inner = wait(&self.can_arrive, inner);
            inner.asleep_arrive -= 1;
        }
        let answer = inner.state.run_arrive();
        let copy = inner.copy();
        drop(inner);
        if copy.asleep_leave > 0 && copy.state.can_leave() {
            self.can_leave.notify_all();
        }
        if copy.asleep_dismiss > 0 && copy.state.can_dismiss() {
            self.can_dismiss.notify_one();
        }
        answer
    }

    /// As [`arrive`](Self::arrive), and calls `f` with the data and the answer under the same lock.
    ///
    /// Where `f` panics no field changes. `f` must not call this monitor.
    pub fn arrive_with<R>(&self, f: impl FnOnce(&mut D, i64) -> R) -> R {
        let mut inner = lock(&self.inner);
        while !inner.state.can_arrive() {
            inner.asleep_arrive += 1;
            inner = wait(&self.can_arrive, inner);
            inner.asleep_arrive -= 1;
        }
        let hand = HandOn(&self.can_arrive);
        let mut next = inner.state;
        let answer = next.run_arrive();
        let result = f(&mut inner.data, answer);
        std::mem::forget(hand);
        inner.state = next;
        let copy = inner.copy();
        drop(inner);
        if copy.asleep_leave > 0 && copy.state.can_leave() {
            self.can_leave.notify_all();
        }
        if copy.asleep_dismiss > 0 && copy.state.can_dismiss() {
            self.can_dismiss.notify_one();
        }
        result
    }

    /// As [`arrive`](Self::arrive), but does not wait until `!open && waiting < PARTIES`.
    ///
    /// # Errors
    ///
    /// [`Refused`] where `!open && waiting < PARTIES` is false. Then nothing changes.
    pub fn try_arrive(&self) -> Result<i64, Refused> {
        let mut inner = lock(&self.inner);
        if !inner.state.can_arrive() {
            return Err(Refused);
        }
        let answer = inner.state.run_arrive();
        let copy = inner.copy();
        drop(inner);
        if copy.asleep_leave > 0 && copy.state.can_leave() {
            self.can_leave.notify_all();
        }
        if copy.asleep_dismiss > 0 && copy.state.can_dismiss() {
            self.can_dismiss.notify_one();
        }
        Ok(answer)
    }

    /// As [`try_arrive`](Self::try_arrive), and calls `f` with the data and the answer under the same lock.
    ///
    /// Where `f` panics no field changes. `f` must not call this monitor.
    ///
    /// # Errors
    ///
    /// [`Refused`] where `!open && waiting < PARTIES` is false. Then nothing changes.
    pub fn try_arrive_with<R>(&self, f: impl FnOnce(&mut D, i64) -> R) -> Result<R, Refused> {
        let mut inner = lock(&self.inner);
        if !inner.state.can_arrive() {
            return Err(Refused);
        }
        let hand = HandOn(&self.can_arrive);
        let mut next = inner.state;
        let answer = next.run_arrive();
        let result = f(&mut inner.data, answer);
        std::mem::forget(hand);
        inner.state = next;
        let copy = inner.copy();
        drop(inner);
        if copy.asleep_leave > 0 && copy.state.can_leave() {
            self.can_leave.notify_all();
        }
        if copy.asleep_dismiss > 0 && copy.state.can_dismiss() {
            self.can_dismiss.notify_one();
        }
        Ok(result)
    }

    /// As [`arrive`](Self::arrive), but waits for `!open && waiting < PARTIES` no longer than until `end`.
    ///
    /// # Errors
    ///
    /// [`Refused`] where its time is over and `!open && waiting < PARTIES` is false. Then nothing changes.
    pub fn arrive_until(&self, end: Instant) -> Result<i64, Refused> {
        let mut inner = lock(&self.inner);
        while !inner.state.can_arrive() {
            let Some(left) = time_left(end) else {
                return Err(Refused);
            };
            inner.asleep_arrive += 1;
            inner = wait_for(&self.can_arrive, inner, left);
            inner.asleep_arrive -= 1;
        }
        let answer = inner.state.run_arrive();
        let copy = inner.copy();
        drop(inner);
        if copy.asleep_leave > 0 && copy.state.can_leave() {
            self.can_leave.notify_all();
        }
        if copy.asleep_dismiss > 0 && copy.state.can_dismiss() {
            self.can_dismiss.notify_one();
        }
        Ok(answer)
    }

    /// As [`arrive_until`](Self::arrive_until), and calls `f` with the data and the answer under the same lock.
    ///
    /// Where `f` panics no field changes. `f` must not call this monitor.
    ///
    /// # Errors
    ///
    /// [`Refused`] where its time is over and `!open && waiting < PARTIES` is false. Then nothing changes.
    pub fn arrive_until_with<R>(&self, end: Instant, f: impl FnOnce(&mut D, i64) -> R) -> Result<R, Refused> {
        let mut inner = lock(&self.inner);
        while !inner.state.can_arrive() {
            let Some(left) = time_left(end) else {
                return Err(Refused);
            };
            inner.asleep_arrive += 1;
            inner = wait_for(&self.can_arrive, inner, left);
            inner.asleep_arrive -= 1;
        }
        let hand = HandOn(&self.can_arrive);
        let mut next = inner.state;
        let answer = next.run_arrive();
        let result = f(&mut inner.data, answer);
        std::mem::forget(hand);
        inner.state = next;
        let copy = inner.copy();
        drop(inner);
        if copy.asleep_leave > 0 && copy.state.can_leave() {
            self.can_leave.notify_all();
        }
        if copy.asleep_dismiss > 0 && copy.state.can_dismiss() {
            self.can_dismiss.notify_one();
        }
        Ok(result)
    }

    /// As [`arrive`](Self::arrive), but waits for `!open && waiting < PARTIES` no longer than `time`.
    ///
    /// # Errors
    ///
    /// [`Refused`] where its time is over and `!open && waiting < PARTIES` is false. Then nothing changes.
    pub fn arrive_for(&self, time: Duration) -> Result<i64, Refused> {
        let Some(end) = Instant::now().checked_add(time) else {
            return Ok(self.arrive());
        };
        self.arrive_until(end)
    }

    /// As [`arrive_for`](Self::arrive_for), and calls `f` with the data and the answer under the same lock.
    ///
    /// Where `f` panics no field changes. `f` must not call this monitor.
    ///
    /// # Errors
    ///
    /// [`Refused`] where its time is over and `!open && waiting < PARTIES` is false. Then nothing changes.
    pub fn arrive_for_with<R>(&self, time: Duration, f: impl FnOnce(&mut D, i64) -> R) -> Result<R, Refused> {
        let Some(end) = Instant::now().checked_add(time) else {
            return Ok(self.arrive_with(f));
        };
        self.arrive_until_with(end, f)
    }

    /// Waits until `open && waiting > 0`.
    pub fn leave(&self) -> i64 {
        let mut inner = lock(&self.inner);
        while !inner.state.can_leave() {
            inner.asleep_leave += 1;
            inner = wait(&self.can_leave, inner);
            inner.asleep_leave -= 1;
        }
        let answer = inner.state.run_leave();
        let copy = inner.copy();
        drop(inner);
        if copy.asleep_arrive > 0 && copy.state.can_arrive() {
            self.can_arrive.notify_all();
        }
        if copy.asleep_watch > 0 && copy.state.can_watch() {
            self.can_watch.notify_all();
        }
        answer
    }

    /// As [`leave`](Self::leave), and calls `f` with the data and the answer under the same lock.
    ///
    /// Where `f` panics no field changes. `f` must not call this monitor.
    pub fn leave_with<R>(&self, f: impl FnOnce(&mut D, i64) -> R) -> R {
        let mut inner = lock(&self.inner);
        while !inner.state.can_leave() {
            inner.asleep_leave += 1;
            inner = wait(&self.can_leave, inner);
            inner.asleep_leave -= 1;
        }
        let hand = HandOn(&self.can_leave);
        let mut next = inner.state;
        let answer = next.run_leave();
        let result = f(&mut inner.data, answer);
        std::mem::forget(hand);
        inner.state = next;
        let copy = inner.copy();
        drop(inner);
        if copy.asleep_arrive > 0 && copy.state.can_arrive() {
            self.can_arrive.notify_all();
        }
        if copy.asleep_watch > 0 && copy.state.can_watch() {
            self.can_watch.notify_all();
        }
        result
    }

    /// As [`leave`](Self::leave), but does not wait until `open && waiting > 0`.
    ///
    /// # Errors
    ///
    /// [`Refused`] where `open && waiting > 0` is false. Then nothing changes.
    pub fn try_leave(&self) -> Result<i64, Refused> {
        let mut inner = lock(&self.inner);
        if !inner.state.can_leave() {
            return Err(Refused);
        }
        let answer = inner.state.run_leave();
        let copy = inner.copy();
        drop(inner);
        if copy.asleep_arrive > 0 && copy.state.can_arrive() {
            self.can_arrive.notify_all();
        }
        if copy.asleep_watch > 0 && copy.state.can_watch() {
            self.can_watch.notify_all();
        }
        Ok(answer)
    }

    /// As [`try_leave`](Self::try_leave), and calls `f` with the data and the answer under the same lock.
    ///
    /// Where `f` panics no field changes. `f` must not call this monitor.
    ///
    /// # Errors
    ///
    /// [`Refused`] where `open && waiting > 0` is false. Then nothing changes.
    pub fn try_leave_with<R>(&self, f: impl FnOnce(&mut D, i64) -> R) -> Result<R, Refused> {
        let mut inner = lock(&self.inner);
        if !inner.state.can_leave() {
            return Err(Refused);
        }
        let hand = HandOn(&self.can_leave);
        let mut next = inner.state;
        let answer = next.run_leave();
        let result = f(&mut inner.data, answer);
        std::mem::forget(hand);
        inner.state = next;
        let copy = inner.copy();
        drop(inner);
        if copy.asleep_arrive > 0 && copy.state.can_arrive() {
            self.can_arrive.notify_all();
        }
        if copy.asleep_watch > 0 && copy.state.can_watch() {
            self.can_watch.notify_all();
        }
        Ok(result)
    }

    /// As [`leave`](Self::leave), but waits for `open && waiting > 0` no longer than until `end`.
    ///
    /// # Errors
    ///
    /// [`Refused`] where its time is over and `open && waiting > 0` is false. Then nothing changes.
    pub fn leave_until(&self, end: Instant) -> Result<i64, Refused> {
        let mut inner = lock(&self.inner);
        while !inner.state.can_leave() {
            let Some(left) = time_left(end) else {
                return Err(Refused);
            };
            inner.asleep_leave += 1;
            inner = wait_for(&self.can_leave, inner, left);
            inner.asleep_leave -= 1;
        }
        let answer = inner.state.run_leave();
        let copy = inner.copy();
        drop(inner);
        if copy.asleep_arrive > 0 && copy.state.can_arrive() {
            self.can_arrive.notify_all();
        }
        if copy.asleep_watch > 0 && copy.state.can_watch() {
            self.can_watch.notify_all();
        }
        Ok(answer)
    }

    /// As [`leave_until`](Self::leave_until), and calls `f` with the data and the answer under the same lock.
    ///
    /// Where `f` panics no field changes. `f` must not call this monitor.
    ///
    /// # Errors
    ///
    /// [`Refused`] where its time is over and `open && waiting > 0` is false. Then nothing changes.
    pub fn leave_until_with<R>(&self, end: Instant, f: impl FnOnce(&mut D, i64) -> R) -> Result<R, Refused> {
        let mut inner = lock(&self.inner);
        while !inner.state.can_leave() {
            let Some(left) = time_left(end) else {
                return Err(Refused);
            };
            inner.asleep_leave += 1;
            inner = wait_for(&self.can_leave, inner, left);
            inner.asleep_leave -= 1;
        }
        let hand = HandOn(&self.can_leave);
        let mut next = inner.state;
        let answer = next.run_leave();
        let result = f(&mut inner.data, answer);
        std::mem::forget(hand);
        inner.state = next;
        let copy = inner.copy();
        drop(inner);
        if copy.asleep_arrive > 0 && copy.state.can_arrive() {
            self.can_arrive.notify_all();
        }
        if copy.asleep_watch > 0 && copy.state.can_watch() {
            self.can_watch.notify_all();
        }
        Ok(result)
    }

    /// As [`leave`](Self::leave), but waits for `open && waiting > 0` no longer than `time`.
    ///
    /// # Errors
    ///
    /// [`Refused`] where its time is over and `open && waiting > 0` is false. Then nothing changes.
    pub fn leave_for(&self, time: Duration) -> Result<i64, Refused> {
        let Some(end) = Instant::now().checked_add(time) else {
            return Ok(self.leave());
        };
        self.leave_until(end)
    }

    /// As [`leave_for`](Self::leave_for), and calls `f` with the data and the answer under the same lock.
    ///
    /// Where `f` panics no field changes. `f` must not call this monitor.
    ///
    /// # Errors
    ///
    /// [`Refused`] where its time is over and `open && waiting > 0` is false. Then nothing changes.
    pub fn leave_for_with<R>(&self, time: Duration, f: impl FnOnce(&mut D, i64) -> R) -> Result<R, Refused> {
        let Some(end) = Instant::now().checked_add(time) else {
            return Ok(self.leave_with(f));
        };
        self.leave_until_with(end, f)
    }

    /// Waits until `waiting == PARTIES && open`.
    pub fn dismiss(&self) {
        let mut inner = lock(&self.inner);
        while !inner.state.can_dismiss() {
            inner.asleep_dismiss += 1;
            inner = wait(&self.can_dismiss, inner);
            inner.asleep_dismiss -= 1;
        }
        inner.state.run_dismiss();
        let copy = inner.copy();
        drop(inner);
        if copy.asleep_arrive > 0 {
            self.can_arrive.notify_all();
        }
        if copy.asleep_watch > 0 {
            self.can_watch.notify_all();
        }
    }

    /// As [`dismiss`](Self::dismiss), and calls `f` with the data under the same lock.
    ///
    /// Where `f` panics no field changes. `f` must not call this monitor.
    pub fn dismiss_with<R>(&self, f: impl FnOnce(&mut D) -> R) -> R {
        let mut inner = lock(&self.inner);
        while !inner.state.can_dismiss() {
            inner.asleep_dismiss += 1;
            inner = wait(&self.can_dismiss, inner);
            inner.asleep_dismiss -= 1;
        }
        let hand = HandOn(&self.can_dismiss);
        let mut next = inner.state;
        next.run_dismiss();
        let result = f(&mut inner.data);
        std::mem::forget(hand);
        inner.state = next;
        let copy = inner.copy();
        drop(inner);
        if copy.asleep_arrive > 0 {
            self.can_arrive.notify_all();
        }
        if copy.asleep_watch > 0 {
            self.can_watch.notify_all();
        }
        result
    }

    /// As [`dismiss`](Self::dismiss), but does not wait until `waiting == PARTIES && open`.
    ///
    /// # Errors
    ///
    /// [`Refused`] where `waiting == PARTIES && open` is false. Then nothing changes.
    pub fn try_dismiss(&self) -> Result<(), Refused> {
        let mut inner = lock(&self.inner);
        if !inner.state.can_dismiss() {
            return Err(Refused);
        }
        inner.state.run_dismiss();
        let copy = inner.copy();
        drop(inner);
        if copy.asleep_arrive > 0 {
            self.can_arrive.notify_all();
        }
        if copy.asleep_watch > 0 {
            self.can_watch.notify_all();
        }
        Ok(())
    }

    /// As [`try_dismiss`](Self::try_dismiss), and calls `f` with the data under the same lock.
    ///
    /// Where `f` panics no field changes. `f` must not call this monitor.
    ///
    /// # Errors
    ///
    /// [`Refused`] where `waiting == PARTIES && open` is false. Then nothing changes.
    pub fn try_dismiss_with<R>(&self, f: impl FnOnce(&mut D) -> R) -> Result<R, Refused> {
        let mut inner = lock(&self.inner);
        if !inner.state.can_dismiss() {
            return Err(Refused);
        }
        let hand = HandOn(&self.can_dismiss);
        let mut next = inner.state;
        next.run_dismiss();
        let result = f(&mut inner.data);
        std::mem::forget(hand);
        inner.state = next;
        let copy = inner.copy();
        drop(inner);
        if copy.asleep_arrive > 0 {
            self.can_arrive.notify_all();
        }
        if copy.asleep_watch > 0 {
            self.can_watch.notify_all();
        }
        Ok(result)
    }

    /// As [`dismiss`](Self::dismiss), but waits for `waiting == PARTIES && open` no longer than until `end`.
    ///
    /// # Errors
    ///
    /// [`Refused`] where its time is over and `waiting == PARTIES && open` is false. Then nothing changes.
    pub fn dismiss_until(&self, end: Instant) -> Result<(), Refused> {
        let mut inner = lock(&self.inner);
        while !inner.state.can_dismiss() {
            let Some(left) = time_left(end) else {
                return Err(Refused);
            };
            inner.asleep_dismiss += 1;
            inner = wait_for(&self.can_dismiss, inner, left);
            inner.asleep_dismiss -= 1;
        }
        inner.state.run_dismiss();
        let copy = inner.copy();
        drop(inner);
        if copy.asleep_arrive > 0 {
            self.can_arrive.notify_all();
        }
        if copy.asleep_watch > 0 {
            self.can_watch.notify_all();
        }
        Ok(())
    }

    /// As [`dismiss_until`](Self::dismiss_until), and calls `f` with the data under the same lock.
    ///
    /// Where `f` panics no field changes. `f` must not call this monitor.
    ///
    /// # Errors
    ///
    /// [`Refused`] where its time is over and `waiting == PARTIES && open` is false. Then nothing changes.
    pub fn dismiss_until_with<R>(&self, end: Instant, f: impl FnOnce(&mut D) -> R) -> Result<R, Refused> {
        let mut inner = lock(&self.inner);
        while !inner.state.can_dismiss() {
            let Some(left) = time_left(end) else {
                return Err(Refused);
            };
            inner.asleep_dismiss += 1;
            inner = wait_for(&self.can_dismiss, inner, left);
            inner.asleep_dismiss -= 1;
        }
        let hand = HandOn(&self.can_dismiss);
        let mut next = inner.state;
        next.run_dismiss();
        let result = f(&mut inner.data);
        std::mem::forget(hand);
        inner.state = next;
        let copy = inner.copy();
        drop(inner);
        if copy.asleep_arrive > 0 {
            self.can_arrive.notify_all();
        }
        if copy.asleep_watch > 0 {
            self.can_watch.notify_all();
        }
        Ok(result)
    }

    /// As [`dismiss`](Self::dismiss), but waits for `waiting == PARTIES && open` no longer than `time`.
    ///
    /// # Errors
    ///
    /// [`Refused`] where its time is over and `waiting == PARTIES && open` is false. Then nothing changes.
    pub fn dismiss_for(&self, time: Duration) -> Result<(), Refused> {
        let Some(end) = Instant::now().checked_add(time) else {
            self.dismiss();
            return Ok(());
        };
        self.dismiss_until(end)
    }

    /// As [`dismiss_for`](Self::dismiss_for), and calls `f` with the data under the same lock.
    ///
    /// Where `f` panics no field changes. `f` must not call this monitor.
    ///
    /// # Errors
    ///
    /// [`Refused`] where its time is over and `waiting == PARTIES && open` is false. Then nothing changes.
    pub fn dismiss_for_with<R>(&self, time: Duration, f: impl FnOnce(&mut D) -> R) -> Result<R, Refused> {
        let Some(end) = Instant::now().checked_add(time) else {
            return Ok(self.dismiss_with(f));
        };
        self.dismiss_until_with(end, f)
    }

    /// Waits until `waiting == 0 && !open`.
    pub fn watch(&self) {
        let mut inner = lock(&self.inner);
        while !inner.state.can_watch() {
            inner.asleep_watch += 1;
            inner = wait(&self.can_watch, inner);
            inner.asleep_watch -= 1;
        }
        inner.state.run_watch();
        drop(inner);
    }

    /// As [`watch`](Self::watch), and calls `f` with the data under the same lock.
    ///
    /// Where `f` panics no field changes. `f` must not call this monitor.
    pub fn watch_with<R>(&self, f: impl FnOnce(&mut D) -> R) -> R {
        let mut inner = lock(&self.inner);
        while !inner.state.can_watch() {
            inner.asleep_watch += 1;
            inner = wait(&self.can_watch, inner);
            inner.asleep_watch -= 1;
        }
        let hand = HandOn(&self.can_watch);
        let mut next = inner.state;
        next.run_watch();
        let result = f(&mut inner.data);
        std::mem::forget(hand);
        inner.state = next;
        drop(inner);
        result
    }

    /// As [`watch`](Self::watch), but does not wait until `waiting == 0 && !open`.
    ///
    /// # Errors
    ///
    /// [`Refused`] where `waiting == 0 && !open` is false. Then nothing changes.
    pub fn try_watch(&self) -> Result<(), Refused> {
        let mut inner = lock(&self.inner);
        if !inner.state.can_watch() {
            return Err(Refused);
        }
        inner.state.run_watch();
        drop(inner);
        Ok(())
    }

    /// As [`try_watch`](Self::try_watch), and calls `f` with the data under the same lock.
    ///
    /// Where `f` panics no field changes. `f` must not call this monitor.
    ///
    /// # Errors
    ///
    /// [`Refused`] where `waiting == 0 && !open` is false. Then nothing changes.
    pub fn try_watch_with<R>(&self, f: impl FnOnce(&mut D) -> R) -> Result<R, Refused> {
        let mut inner = lock(&self.inner);
        if !inner.state.can_watch() {
            return Err(Refused);
        }
        let hand = HandOn(&self.can_watch);
        let mut next = inner.state;
        next.run_watch();
        let result = f(&mut inner.data);
        std::mem::forget(hand);
        inner.state = next;
        drop(inner);
        Ok(result)
    }

    /// As [`watch`](Self::watch), but waits for `waiting == 0 && !open` no longer than until `end`.
    ///
    /// # Errors
    ///
    /// [`Refused`] where its time is over and `waiting == 0 && !open` is false. Then nothing changes.
    pub fn watch_until(&self, end: Instant) -> Result<(), Refused> {
        let mut inner = lock(&self.inner);
        while !inner.state.can_watch() {
            let Some(left) = time_left(end) else {
                return Err(Refused);
            };
            inner.asleep_watch += 1;
            inner = wait_for(&self.can_watch, inner, left);
            inner.asleep_watch -= 1;
        }
        inner.state.run_watch();
        drop(inner);
        Ok(())
    }

    /// As [`watch_until`](Self::watch_until), and calls `f` with the data under the same lock.
    ///
    /// Where `f` panics no field changes. `f` must not call this monitor.
    ///
    /// # Errors
    ///
    /// [`Refused`] where its time is over and `waiting == 0 && !open` is false. Then nothing changes.
    pub fn watch_until_with<R>(&self, end: Instant, f: impl FnOnce(&mut D) -> R) -> Result<R, Refused> {
        let mut inner = lock(&self.inner);
        while !inner.state.can_watch() {
            let Some(left) = time_left(end) else {
                return Err(Refused);
            };
            inner.asleep_watch += 1;
            inner = wait_for(&self.can_watch, inner, left);
            inner.asleep_watch -= 1;
        }
        let hand = HandOn(&self.can_watch);
        let mut next = inner.state;
        next.run_watch();
        let result = f(&mut inner.data);
        std::mem::forget(hand);
        inner.state = next;
        drop(inner);
        Ok(result)
    }

    /// As [`watch`](Self::watch), but waits for `waiting == 0 && !open` no longer than `time`.
    ///
    /// # Errors
    ///
    /// [`Refused`] where its time is over and `waiting == 0 && !open` is false. Then nothing changes.
    pub fn watch_for(&self, time: Duration) -> Result<(), Refused> {
        let Some(end) = Instant::now().checked_add(time) else {
            self.watch();
            return Ok(());
        };
        self.watch_until(end)
    }

    /// As [`watch_for`](Self::watch_for), and calls `f` with the data under the same lock.
    ///
    /// Where `f` panics no field changes. `f` must not call this monitor.
    ///
    /// # Errors
    ///
    /// [`Refused`] where its time is over and `waiting == 0 && !open` is false. Then nothing changes.
    pub fn watch_for_with<R>(&self, time: Duration, f: impl FnOnce(&mut D) -> R) -> Result<R, Refused> {
        let Some(end) = Instant::now().checked_add(time) else {
            return Ok(self.watch_with(f));
        };
        self.watch_until_with(end, f)
    }
}

impl Default for Barrier {
    fn default() -> Self {
        Self::new()
    }
}

impl<D> std::fmt::Debug for Barrier<D> {
    fn fmt(&self, f: &mut std::fmt::Formatter<'_>) -> std::fmt::Result {
        let state = match self.inner.try_lock() {
            Ok(inner) => Some(inner.state),
            Err(std::sync::TryLockError::Poisoned(inner)) => Some(inner.into_inner().state),
            Err(std::sync::TryLockError::WouldBlock) => None,
        };
        let mut text = f.debug_struct("Barrier");
        match state {
            Some(state) => text.field("state", &state),
            None => text.field("state", &format_args!("<locked>")),
        };
        text.finish_non_exhaustive()
    }
}

/// What the mutex guards: the fields, how many calls sleep on each condition, and the data.
#[allow(dead_code)]
struct Inner<D = ()> {
    state: State,
    asleep_arrive: usize,
    asleep_leave: usize,
    asleep_dismiss: usize,
    asleep_watch: usize,
    data: D,
}

impl<D> Inner<D> {
    /// All but the data.
    #[allow(dead_code)]
    fn copy(&self) -> Inner {
        Inner {
            state: self.state,
            asleep_arrive: self.asleep_arrive,
            asleep_leave: self.asleep_leave,
            asleep_dismiss: self.asleep_dismiss,
            asleep_watch: self.asleep_watch,
            data: (),
        }
    }
}

/// The fields of the monitor.
#[derive(Clone, Copy, Debug)]
#[allow(dead_code)]
struct State {
    waiting: i64,
    open: bool,
}

// The guards and bodies, with expressions as the monitor has them.
#[rustfmt::skip]
#[allow(unused, unused_comparisons, clippy::all, clippy::pedantic)]
impl State {
    const START: Self = Self {
        waiting: 0,
        open: false,
    };

    fn can_arrive(&self) -> bool {
        !self.open && self.waiting < Barrier::PARTIES
    }

    fn run_arrive(&mut self) -> i64 {
        self.waiting = self.waiting + 1;
        if self.waiting == Barrier::PARTIES {
            self.open = true;
        }
        self.waiting
    }

    fn can_leave(&self) -> bool {
        self.open && self.waiting > 0
    }

    fn run_leave(&mut self) -> i64 {
        self.waiting = self.waiting - 1;
        self.open = self.waiting > 0;
        self.waiting
    }

    fn can_dismiss(&self) -> bool {
        self.waiting == Barrier::PARTIES && self.open
    }

    fn run_dismiss(&mut self) {
        self.waiting = 0;
        self.open = false;
    }

    fn can_watch(&self) -> bool {
        self.waiting == 0 && !self.open
    }

    fn run_watch(&mut self) {}
}

/// Locks the monitor, poisoned or not: where a function panicked its block changed no field.
fn lock<D>(inner: &Mutex<Inner<D>>) -> MutexGuard<'_, Inner<D>> {
    inner.lock().unwrap_or_else(PoisonError::into_inner)
}

/// Gives the lock back and waits on the condition, in one step, and takes the lock again.
fn wait<'a, D>(condition: &Condvar, inner: MutexGuard<'a, Inner<D>>) -> MutexGuard<'a, Inner<D>> {
    condition
        .wait(inner)
        .unwrap_or_else(PoisonError::into_inner)
}

/// Wakes one call that waits on the condition, where a block ends that changed nothing.
#[allow(dead_code)]
struct HandOn<'a>(&'a Condvar);

impl Drop for HandOn<'_> {
    fn drop(&mut self) {
        self.0.notify_one();
    }
}

/// As `wait`, but no longer than this.
fn wait_for<'a, D>(
    condition: &Condvar,
    inner: MutexGuard<'a, Inner<D>>,
    left: Duration,
) -> MutexGuard<'a, Inner<D>> {
    condition
        .wait_timeout(inner, left)
        .unwrap_or_else(PoisonError::into_inner)
        .0
}

/// How long it is until then, or `None` where it has come.
fn time_left(end: Instant) -> Option<Duration> {
    end.checked_duration_since(Instant::now())
        .filter(|left| !left.is_zero())
}

/// The guard was false, and the call did not wait, or not any longer. Nothing changed.
#[derive(Clone, Copy, Debug, PartialEq, Eq)]
pub struct Refused;

impl std::fmt::Display for Refused {
    fn fmt(&self, f: &mut std::fmt::Formatter<'_>) -> std::fmt::Result {
        f.write_str("the guard is false")
    }
}

impl std::error::Error for Refused {}
