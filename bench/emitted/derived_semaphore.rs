// The monitor `Semaphore` as a module of Rust, made by `expresso emit` 0.2.0.
// Change the monitor, and not this file. It wants Rust 1.65 and the edition 2021, or later ones.

use std::sync::{Condvar, Mutex, MutexGuard, PoisonError};
use std::time::{Duration, Instant};

/// The monitor `Semaphore`. Threads share it by reference. A call waits for its guard, unless it tries.
///
/// Its lock guards data `D` too, for the functions that calls are given.
/**
# Plan

```text
plan Semaphore
keep free >= 0
keep free <= 3
condition 1 signal: free > 0
condition 2 signal: free >= 2
condition 3 signal: free < LIMIT
block takeAll: 3 broadcast
block take: 3 signal
block takeTwo: 3 broadcast
block give: 1 signal, 2 signal tested
```
*/
#[allow(dead_code, non_camel_case_types)]
#[allow(clippy::doc_markdown, clippy::upper_case_acronyms)]
pub struct Semaphore<D = ()> {
    inner: Mutex<Inner<D>>,
    /// For calls that wait until `free > 0`.
    can_take_all: Condvar,
    /// For calls that wait until `free >= 2`.
    can_take_two: Condvar,
    /// For calls that wait until `free < LIMIT`.
    can_give: Condvar,
}

#[rustfmt::skip]
#[allow(dead_code, clippy::doc_markdown, clippy::style)]
impl Semaphore {
    /// The constant `LIMIT`.
    pub const LIMIT: i64 = 3;

    /// The monitor at its start.
    #[must_use]
    pub const fn new() -> Self {
        Self::with_data(())
    }
}

#[rustfmt::skip]
#[allow(dead_code, non_snake_case)]
#[allow(clippy::doc_markdown, clippy::style, clippy::too_many_arguments)]
impl<D> Semaphore<D> {
    /// The monitor at its start, with these data.
    #[must_use]
    pub const fn with_data(data: D) -> Self {
        Self {
            inner: Mutex::new(Inner {
                state: State::START,
                asleep_take_all: 0,
                asleep_take_two: 0,
                asleep_give: 0,
                data,
            }),
            can_take_all: Condvar::new(),
            can_take_two: Condvar::new(),
            can_give: Condvar::new(),
        }
    }

    /// The data, which nobody shares now.
    #[must_use]
    pub fn get_mut(&mut self) -> &mut D {
        &mut self.inner.get_mut().unwrap_or_else(PoisonError::into_inner).data
    }

    /// The data, without the monitor.
    #[must_use]
    pub fn into_inner(self) -> D {
        self.inner.into_inner().unwrap_or_else(PoisonError::into_inner).data
    }

    /// Whether the mutex is poisoned, as where a function panicked that a call was given.
    #[must_use]
    pub fn is_poisoned(&self) -> bool {
        self.inner.is_poisoned()
    }

    /// Waits until `free > 0`.
    pub fn take_all(&self) {
        let mut inner = lock(&self.inner);
        while !inner.state.can_take_all() {
            inner.asleep_take_all += 1;
            inner = wait(&self.can_take_all, inner);
            inner.asleep_take_all -= 1;
        }
        inner.state.run_take_all();
        let copy = inner.copy();
        drop(inner);
        if copy.asleep_give > 0 {
            self.can_give.notify_all();
        }
    }

    /// As [`take_all`](Self::take_all), and calls `f` with the data under the same lock.
    ///
    /// Where `f` panics no field changes. `f` must not call this monitor.
    pub fn take_all_with<R>(&self, f: impl FnOnce(&mut D) -> R) -> R {
        let mut inner = lock(&self.inner);
        while !inner.state.can_take_all() {
            inner.asleep_take_all += 1;
            inner = wait(&self.can_take_all, inner);
            inner.asleep_take_all -= 1;
        }
        let hand = HandOn(&self.can_take_all);
        let mut next = inner.state;
        next.run_take_all();
        let result = f(&mut inner.data);
        std::mem::forget(hand);
        inner.state = next;
        let copy = inner.copy();
        drop(inner);
        if copy.asleep_give > 0 {
            self.can_give.notify_all();
        }
        result
    }

    /// As [`take_all`](Self::take_all), but does not wait until `free > 0`.
    ///
    /// # Errors
    ///
    /// [`Refused`] where `free > 0` is false. Then nothing changes.
    pub fn try_take_all(&self) -> Result<(), Refused> {
        let mut inner = lock(&self.inner);
        if !inner.state.can_take_all() {
            return Err(Refused);
        }
        inner.state.run_take_all();
        let copy = inner.copy();
        drop(inner);
        if copy.asleep_give > 0 {
            self.can_give.notify_all();
        }
        Ok(())
    }

    /// As [`try_take_all`](Self::try_take_all), and calls `f` with the data under the same lock.
    ///
    /// Where `f` panics no field changes. `f` must not call this monitor.
    ///
    /// # Errors
    ///
    /// [`Refused`] where `free > 0` is false. Then nothing changes.
    pub fn try_take_all_with<R>(&self, f: impl FnOnce(&mut D) -> R) -> Result<R, Refused> {
        let mut inner = lock(&self.inner);
        if !inner.state.can_take_all() {
            return Err(Refused);
        }
        let hand = HandOn(&self.can_take_all);
        let mut next = inner.state;
        next.run_take_all();
        let result = f(&mut inner.data);
        std::mem::forget(hand);
        inner.state = next;
        let copy = inner.copy();
        drop(inner);
        if copy.asleep_give > 0 {
            self.can_give.notify_all();
        }
        Ok(result)
    }

    /// As [`take_all`](Self::take_all), but waits for `free > 0` no longer than until `end`.
    ///
    /// # Errors
    ///
    /// [`Refused`] where its time is over and `free > 0` is false. Then nothing changes.
    pub fn take_all_until(&self, end: Instant) -> Result<(), Refused> {
        let mut inner = lock(&self.inner);
        while !inner.state.can_take_all() {
            let Some(left) = time_left(end) else {
                return Err(Refused);
            };
            inner.asleep_take_all += 1;
            inner = wait_for(&self.can_take_all, inner, left);
            inner.asleep_take_all -= 1;
        }
        inner.state.run_take_all();
        let copy = inner.copy();
        drop(inner);
        if copy.asleep_give > 0 {
            self.can_give.notify_all();
        }
        Ok(())
    }

    /// As [`take_all_until`](Self::take_all_until), and calls `f` with the data under the same lock.
    ///
    /// Where `f` panics no field changes. `f` must not call this monitor.
    ///
    /// # Errors
    ///
    /// [`Refused`] where its time is over and `free > 0` is false. Then nothing changes.
    pub fn take_all_until_with<R>(&self, end: Instant, f: impl FnOnce(&mut D) -> R) -> Result<R, Refused> {
        let mut inner = lock(&self.inner);
        while !inner.state.can_take_all() {
            let Some(left) = time_left(end) else {
                return Err(Refused);
            };
            inner.asleep_take_all += 1;
            inner = wait_for(&self.can_take_all, inner, left);
            inner.asleep_take_all -= 1;
        }
        let hand = HandOn(&self.can_take_all);
        let mut next = inner.state;
        next.run_take_all();
        let result = f(&mut inner.data);
        std::mem::forget(hand);
        inner.state = next;
        let copy = inner.copy();
        drop(inner);
        if copy.asleep_give > 0 {
            self.can_give.notify_all();
        }
        Ok(result)
    }

    /// As [`take_all`](Self::take_all), but waits for `free > 0` no longer than `time`.
    ///
    /// # Errors
    ///
    /// [`Refused`] where its time is over and `free > 0` is false. Then nothing changes.
    pub fn take_all_for(&self, time: Duration) -> Result<(), Refused> {
        let Some(end) = Instant::now().checked_add(time) else {
            self.take_all();
            return Ok(());
        };
        self.take_all_until(end)
    }

    /// As [`take_all_for`](Self::take_all_for), and calls `f` with the data under the same lock.
    ///
    /// Where `f` panics no field changes. `f` must not call this monitor.
    ///
    /// # Errors
    ///
    /// [`Refused`] where its time is over and `free > 0` is false. Then nothing changes.
    pub fn take_all_for_with<R>(&self, time: Duration, f: impl FnOnce(&mut D) -> R) -> Result<R, Refused> {
        let Some(end) = Instant::now().checked_add(time) else {
            return Ok(self.take_all_with(f));
        };
        self.take_all_until_with(end, f)
    }

    /// Waits until `free >= 1`.
    pub fn take(&self) {
        let mut inner = lock(&self.inner);
        while !inner.state.can_take_all() {
            inner.asleep_take_all += 1;
            inner = wait(&self.can_take_all, inner);
            inner.asleep_take_all -= 1;
        }
        inner.state.run_take();
        let copy = inner.copy();
        drop(inner);
        if copy.asleep_give > 0 {
            self.can_give.notify_one();
        }
    }

    /// As [`take`](Self::take), and calls `f` with the data under the same lock.
    ///
    /// Where `f` panics no field changes. `f` must not call this monitor.
    pub fn take_with<R>(&self, f: impl FnOnce(&mut D) -> R) -> R {
        let mut inner = lock(&self.inner);
        while !inner.state.can_take_all() {
            inner.asleep_take_all += 1;
            inner = wait(&self.can_take_all, inner);
            inner.asleep_take_all -= 1;
        }
        let hand = HandOn(&self.can_take_all);
        let mut next = inner.state;
        next.run_take();
        let result = f(&mut inner.data);
        std::mem::forget(hand);
        inner.state = next;
        let copy = inner.copy();
        drop(inner);
        if copy.asleep_give > 0 {
            self.can_give.notify_one();
        }
        result
    }

    /// As [`take`](Self::take), but does not wait until `free >= 1`.
    ///
    /// # Errors
    ///
    /// [`Refused`] where `free >= 1` is false. Then nothing changes.
    pub fn try_take(&self) -> Result<(), Refused> {
        let mut inner = lock(&self.inner);
        if !inner.state.can_take_all() {
            return Err(Refused);
        }
        inner.state.run_take();
        let copy = inner.copy();
        drop(inner);
        if copy.asleep_give > 0 {
            self.can_give.notify_one();
        }
        Ok(())
    }

    /// As [`try_take`](Self::try_take), and calls `f` with the data under the same lock.
    ///
    /// Where `f` panics no field changes. `f` must not call this monitor.
    ///
    /// # Errors
    ///
    /// [`Refused`] where `free >= 1` is false. Then nothing changes.
    pub fn try_take_with<R>(&self, f: impl FnOnce(&mut D) -> R) -> Result<R, Refused> {
        let mut inner = lock(&self.inner);
        if !inner.state.can_take_all() {
            return Err(Refused);
        }
        let hand = HandOn(&self.can_take_all);
        let mut next = inner.state;
        next.run_take();
        let result = f(&mut inner.data);
        std::mem::forget(hand);
        inner.state = next;
        let copy = inner.copy();
        drop(inner);
        if copy.asleep_give > 0 {
            self.can_give.notify_one();
        }
        Ok(result)
    }

    /// As [`take`](Self::take), but waits for `free >= 1` no longer than until `end`.
    ///
    /// # Errors
    ///
    /// [`Refused`] where its time is over and `free >= 1` is false. Then nothing changes.
    pub fn take_until(&self, end: Instant) -> Result<(), Refused> {
        let mut inner = lock(&self.inner);
        while !inner.state.can_take_all() {
            let Some(left) = time_left(end) else {
                return Err(Refused);
            };
            inner.asleep_take_all += 1;
            inner = wait_for(&self.can_take_all, inner, left);
            inner.asleep_take_all -= 1;
        }
        inner.state.run_take();
        let copy = inner.copy();
        drop(inner);
        if copy.asleep_give > 0 {
            self.can_give.notify_one();
        }
        Ok(())
    }

    /// As [`take_until`](Self::take_until), and calls `f` with the data under the same lock.
    ///
    /// Where `f` panics no field changes. `f` must not call this monitor.
    ///
    /// # Errors
    ///
    /// [`Refused`] where its time is over and `free >= 1` is false. Then nothing changes.
    pub fn take_until_with<R>(&self, end: Instant, f: impl FnOnce(&mut D) -> R) -> Result<R, Refused> {
        let mut inner = lock(&self.inner);
        while !inner.state.can_take_all() {
            let Some(left) = time_left(end) else {
                return Err(Refused);
            };
            inner.asleep_take_all += 1;
            inner = wait_for(&self.can_take_all, inner, left);
            inner.asleep_take_all -= 1;
        }
        let hand = HandOn(&self.can_take_all);
        let mut next = inner.state;
        next.run_take();
        let result = f(&mut inner.data);
        std::mem::forget(hand);
        inner.state = next;
        let copy = inner.copy();
        drop(inner);
        if copy.asleep_give > 0 {
            self.can_give.notify_one();
        }
        Ok(result)
    }

    /// As [`take`](Self::take), but waits for `free >= 1` no longer than `time`.
    ///
    /// # Errors
    ///
    /// [`Refused`] where its time is over and `free >= 1` is false. Then nothing changes.
    pub fn take_for(&self, time: Duration) -> Result<(), Refused> {
        let Some(end) = Instant::now().checked_add(time) else {
            self.take();
            return Ok(());
        };
        self.take_until(end)
    }

    /// As [`take_for`](Self::take_for), and calls `f` with the data under the same lock.
    ///
    /// Where `f` panics no field changes. `f` must not call this monitor.
    ///
    /// # Errors
    ///
    /// [`Refused`] where its time is over and `free >= 1` is false. Then nothing changes.
    pub fn take_for_with<R>(&self, time: Duration, f: impl FnOnce(&mut D) -> R) -> Result<R, Refused> {
        let Some(end) = Instant::now().checked_add(time) else {
            return Ok(self.take_with(f));
        };
        self.take_until_with(end, f)
    }

    /// Waits until `free >= 2`.
    pub fn take_two(&self) {
        let mut inner = lock(&self.inner);
        while !inner.state.can_take_two() {
            inner.asleep_take_two += 1;
            inner = wait(&self.can_take_two, inner);
            inner.asleep_take_two -= 1;
        }
        inner.state.run_take_two();
        let copy = inner.copy();
        drop(inner);
        if copy.asleep_give > 0 {
            self.can_give.notify_all();
        }
    }

    /// As [`take_two`](Self::take_two), and calls `f` with the data under the same lock.
    ///
    /// Where `f` panics no field changes. `f` must not call this monitor.
    pub fn take_two_with<R>(&self, f: impl FnOnce(&mut D) -> R) -> R {
        let mut inner = lock(&self.inner);
        while !inner.state.can_take_two() {
            inner.asleep_take_two += 1;
            inner = wait(&self.can_take_two, inner);
            inner.asleep_take_two -= 1;
        }
        let hand = HandOn(&self.can_take_two);
        let mut next = inner.state;
        next.run_take_two();
        let result = f(&mut inner.data);
        std::mem::forget(hand);
        inner.state = next;
        let copy = inner.copy();
        drop(inner);
        if copy.asleep_give > 0 {
            self.can_give.notify_all();
        }
        result
    }

    /// As [`take_two`](Self::take_two), but does not wait until `free >= 2`.
    ///
    /// # Errors
    ///
    /// [`Refused`] where `free >= 2` is false. Then nothing changes.
    pub fn try_take_two(&self) -> Result<(), Refused> {
        let mut inner = lock(&self.inner);
        if !inner.state.can_take_two() {
            return Err(Refused);
        }
        inner.state.run_take_two();
        let copy = inner.copy();
        drop(inner);
        if copy.asleep_give > 0 {
            self.can_give.notify_all();
        }
        Ok(())
    }

    /// As [`try_take_two`](Self::try_take_two), and calls `f` with the data under the same lock.
    ///
    /// Where `f` panics no field changes. `f` must not call this monitor.
    ///
    /// # Errors
    ///
    /// [`Refused`] where `free >= 2` is false. Then nothing changes.
    pub fn try_take_two_with<R>(&self, f: impl FnOnce(&mut D) -> R) -> Result<R, Refused> {
        let mut inner = lock(&self.inner);
        if !inner.state.can_take_two() {
            return Err(Refused);
        }
        let hand = HandOn(&self.can_take_two);
        let mut next = inner.state;
        next.run_take_two();
        let result = f(&mut inner.data);
        std::mem::forget(hand);
        inner.state = next;
        let copy = inner.copy();
        drop(inner);
        if copy.asleep_give > 0 {
            self.can_give.notify_all();
        }
        Ok(result)
    }

    /// As [`take_two`](Self::take_two), but waits for `free >= 2` no longer than until `end`.
    ///
    /// # Errors
    ///
    /// [`Refused`] where its time is over and `free >= 2` is false. Then nothing changes.
    pub fn take_two_until(&self, end: Instant) -> Result<(), Refused> {
        let mut inner = lock(&self.inner);
        while !inner.state.can_take_two() {
            let Some(left) = time_left(end) else {
                return Err(Refused);
            };
            inner.asleep_take_two += 1;
            inner = wait_for(&self.can_take_two, inner, left);
            inner.asleep_take_two -= 1;
        }
        inner.state.run_take_two();
        let copy = inner.copy();
        drop(inner);
        if copy.asleep_give > 0 {
            self.can_give.notify_all();
        }
        Ok(())
    }

    /// As [`take_two_until`](Self::take_two_until), and calls `f` with the data under the same lock.
    ///
    /// Where `f` panics no field changes. `f` must not call this monitor.
    ///
    /// # Errors
    ///
    /// [`Refused`] where its time is over and `free >= 2` is false. Then nothing changes.
    pub fn take_two_until_with<R>(&self, end: Instant, f: impl FnOnce(&mut D) -> R) -> Result<R, Refused> {
        let mut inner = lock(&self.inner);
        while !inner.state.can_take_two() {
            let Some(left) = time_left(end) else {
                return Err(Refused);
            };
            inner.asleep_take_two += 1;
            inner = wait_for(&self.can_take_two, inner, left);
            inner.asleep_take_two -= 1;
        }
        let hand = HandOn(&self.can_take_two);
        let mut next = inner.state;
        next.run_take_two();
        let result = f(&mut inner.data);
        std::mem::forget(hand);
        inner.state = next;
        let copy = inner.copy();
        drop(inner);
        if copy.asleep_give > 0 {
            self.can_give.notify_all();
        }
        Ok(result)
    }

    /// As [`take_two`](Self::take_two), but waits for `free >= 2` no longer than `time`.
    ///
    /// # Errors
    ///
    /// [`Refused`] where its time is over and `free >= 2` is false. Then nothing changes.
    pub fn take_two_for(&self, time: Duration) -> Result<(), Refused> {
        let Some(end) = Instant::now().checked_add(time) else {
            self.take_two();
            return Ok(());
        };
        self.take_two_until(end)
    }

    /// As [`take_two_for`](Self::take_two_for), and calls `f` with the data under the same lock.
    ///
    /// Where `f` panics no field changes. `f` must not call this monitor.
    ///
    /// # Errors
    ///
    /// [`Refused`] where its time is over and `free >= 2` is false. Then nothing changes.
    pub fn take_two_for_with<R>(&self, time: Duration, f: impl FnOnce(&mut D) -> R) -> Result<R, Refused> {
        let Some(end) = Instant::now().checked_add(time) else {
            return Ok(self.take_two_with(f));
        };
        self.take_two_until_with(end, f)
    }

    /// Waits until `free < LIMIT`.
    pub fn give(&self) {
        let mut inner = lock(&self.inner);
        while !inner.state.can_give() {
            inner.asleep_give += 1;
            inner = wait(&self.can_give, inner);
            inner.asleep_give -= 1;
        }
        inner.state.run_give();
        let copy = inner.copy();
        drop(inner);
        if copy.asleep_take_all > 0 {
            self.can_take_all.notify_one();
        }
        if copy.asleep_take_two > 0 && copy.state.can_take_two() {
            self.can_take_two.notify_one();
        }
    }

    /// As [`give`](Self::give), and calls `f` with the data under the same lock.
    ///
    /// Where `f` panics no field changes. `f` must not call this monitor.
    pub fn give_with<R>(&self, f: impl FnOnce(&mut D) -> R) -> R {
        let mut inner = lock(&self.inner);
        while !inner.state.can_give() {
            inner.asleep_give += 1;
            inner = wait(&self.can_give, inner);
            inner.asleep_give -= 1;
        }
        let hand = HandOn(&self.can_give);
        let mut next = inner.state;
        next.run_give();
        let result = f(&mut inner.data);
        std::mem::forget(hand);
        inner.state = next;
        let copy = inner.copy();
        drop(inner);
        if copy.asleep_take_all > 0 {
            self.can_take_all.notify_one();
        }
        if copy.asleep_take_two > 0 && copy.state.can_take_two() {
            self.can_take_two.notify_one();
        }
        result
    }

    /// As [`give`](Self::give), but does not wait until `free < LIMIT`.
    ///
    /// # Errors
    ///
    /// [`Refused`] where `free < LIMIT` is false. Then nothing changes.
    pub fn try_give(&self) -> Result<(), Refused> {
        let mut inner = lock(&self.inner);
        if !inner.state.can_give() {
            return Err(Refused);
        }
        inner.state.run_give();
        let copy = inner.copy();
        drop(inner);
        if copy.asleep_take_all > 0 {
            self.can_take_all.notify_one();
        }
        if copy.asleep_take_two > 0 && copy.state.can_take_two() {
            self.can_take_two.notify_one();
        }
        Ok(())
    }

    /// As [`try_give`](Self::try_give), and calls `f` with the data under the same lock.
    ///
    /// Where `f` panics no field changes. `f` must not call this monitor.
    ///
    /// # Errors
    ///
    /// [`Refused`] where `free < LIMIT` is false. Then nothing changes.
    pub fn try_give_with<R>(&self, f: impl FnOnce(&mut D) -> R) -> Result<R, Refused> {
        let mut inner = lock(&self.inner);
        if !inner.state.can_give() {
            return Err(Refused);
        }
        let hand = HandOn(&self.can_give);
        let mut next = inner.state;
        next.run_give();
        let result = f(&mut inner.data);
        std::mem::forget(hand);
        inner.state = next;
        let copy = inner.copy();
        drop(inner);
        if copy.asleep_take_all > 0 {
            self.can_take_all.notify_one();
        }
        if copy.asleep_take_two > 0 && copy.state.can_take_two() {
            self.can_take_two.notify_one();
        }
        Ok(result)
    }

    /// As [`give`](Self::give), but waits for `free < LIMIT` no longer than until `end`.
    ///
    /// # Errors
    ///
    /// [`Refused`] where its time is over and `free < LIMIT` is false. Then nothing changes.
    pub fn give_until(&self, end: Instant) -> Result<(), Refused> {
        let mut inner = lock(&self.inner);
        while !inner.state.can_give() {
            let Some(left) = time_left(end) else {
                return Err(Refused);
            };
            inner.asleep_give += 1;
            inner = wait_for(&self.can_give, inner, left);
            inner.asleep_give -= 1;
        }
        inner.state.run_give();
        let copy = inner.copy();
        drop(inner);
        if copy.asleep_take_all > 0 {
            self.can_take_all.notify_one();
        }
        if copy.asleep_take_two > 0 && copy.state.can_take_two() {
            self.can_take_two.notify_one();
        }
        Ok(())
    }

    /// As [`give_until`](Self::give_until), and calls `f` with the data under the same lock.
    ///
    /// Where `f` panics no field changes. `f` must not call this monitor.
    ///
    /// # Errors
    ///
    /// [`Refused`] where its time is over and `free < LIMIT` is false. Then nothing changes.
    pub fn give_until_with<R>(&self, end: Instant, f: impl FnOnce(&mut D) -> R) -> Result<R, Refused> {
        let mut inner = lock(&self.inner);
        while !inner.state.can_give() {
            let Some(left) = time_left(end) else {
                return Err(Refused);
            };
            inner.asleep_give += 1;
            inner = wait_for(&self.can_give, inner, left);
            inner.asleep_give -= 1;
        }
        let hand = HandOn(&self.can_give);
        let mut next = inner.state;
        next.run_give();
        let result = f(&mut inner.data);
        std::mem::forget(hand);
        inner.state = next;
        let copy = inner.copy();
        drop(inner);
        if copy.asleep_take_all > 0 {
            self.can_take_all.notify_one();
        }
        if copy.asleep_take_two > 0 && copy.state.can_take_two() {
            self.can_take_two.notify_one();
        }
        Ok(result)
    }

    /// As [`give`](Self::give), but waits for `free < LIMIT` no longer than `time`.
    ///
    /// # Errors
    ///
    /// [`Refused`] where its time is over and `free < LIMIT` is false. Then nothing changes.
    pub fn give_for(&self, time: Duration) -> Result<(), Refused> {
        let Some(end) = Instant::now().checked_add(time) else {
            self.give();
            return Ok(());
        };
        self.give_until(end)
    }

    /// As [`give_for`](Self::give_for), and calls `f` with the data under the same lock.
    ///
    /// Where `f` panics no field changes. `f` must not call this monitor.
    ///
    /// # Errors
    ///
    /// [`Refused`] where its time is over and `free < LIMIT` is false. Then nothing changes.
    pub fn give_for_with<R>(&self, time: Duration, f: impl FnOnce(&mut D) -> R) -> Result<R, Refused> {
        let Some(end) = Instant::now().checked_add(time) else {
            return Ok(self.give_with(f));
        };
        self.give_until_with(end, f)
    }
}

impl Default for Semaphore {
    fn default() -> Self {
        Self::new()
    }
}

impl<D> std::fmt::Debug for Semaphore<D> {
    fn fmt(&self, f: &mut std::fmt::Formatter<'_>) -> std::fmt::Result {
        let state = match self.inner.try_lock() {
            Ok(inner) => Some(inner.state),
            Err(std::sync::TryLockError::Poisoned(inner)) => Some(inner.into_inner().state),
            Err(std::sync::TryLockError::WouldBlock) => None,
        };
        let mut text = f.debug_struct("Semaphore");
        match state {
            Some(state) => text.field("state", &state),
            None => text.field("state", &format_args!("<locked>")),
        };
        text.finish_non_exhaustive()
    }
}

/// What the mutex guards: the fields, how many calls sleep on each condition, and the data.
#[allow(dead_code)]
struct Inner<D = ()> {
    state: State,
    asleep_take_all: usize,
    asleep_take_two: usize,
    asleep_give: usize,
    data: D,
}

impl<D> Inner<D> {
    /// All but the data.
    #[allow(dead_code)]
    fn copy(&self) -> Inner {
        Inner {
            state: self.state,
            asleep_take_all: self.asleep_take_all,
            asleep_take_two: self.asleep_take_two,
            asleep_give: self.asleep_give,
            data: (),
        }
    }
}

/// The fields of the monitor.
#[derive(Clone, Copy, Debug)]
#[allow(dead_code)]
struct State {
    free: i64,
}

// The guards and bodies, with expressions as the monitor has them.
#[rustfmt::skip]
#[allow(unused, unused_comparisons, clippy::all, clippy::pedantic)]
impl State {
    const START: Self = Self {
        free: 3,
    };

    fn can_take_all(&self) -> bool {
        self.free > 0
    }

    fn run_take_all(&mut self) {
        self.free = 0;
    }

    fn run_take(&mut self) {
        self.free = self.free - 1;
    }

    fn can_take_two(&self) -> bool {
        self.free >= 2
    }

    fn run_take_two(&mut self) {
        self.free = self.free - 2;
    }

    fn can_give(&self) -> bool {
        self.free < Semaphore::LIMIT
    }

    fn run_give(&mut self) {
        self.free = self.free + 1;
    }
}

/// Locks the monitor, poisoned or not: where a function panicked its block changed no field.
fn lock<D>(inner: &Mutex<Inner<D>>) -> MutexGuard<'_, Inner<D>> {
    inner.lock().unwrap_or_else(PoisonError::into_inner)
}

/// Gives the lock back and waits on the condition, in one step, and takes the lock again.
fn wait<'a, D>(condition: &Condvar, inner: MutexGuard<'a, Inner<D>>) -> MutexGuard<'a, Inner<D>> {
    condition
        .wait(inner)
        .unwrap_or_else(PoisonError::into_inner)
}

/// Wakes one call that waits on the condition, where a block ends that changed nothing.
#[allow(dead_code)]
struct HandOn<'a>(&'a Condvar);

impl Drop for HandOn<'_> {
    fn drop(&mut self) {
        self.0.notify_one();
    }
}

/// As `wait`, but no longer than this.
fn wait_for<'a, D>(
    condition: &Condvar,
    inner: MutexGuard<'a, Inner<D>>,
    left: Duration,
) -> MutexGuard<'a, Inner<D>> {
    condition
        .wait_timeout(inner, left)
        .unwrap_or_else(PoisonError::into_inner)
        .0
}

/// How long it is until then, or `None` where it has come.
fn time_left(end: Instant) -> Option<Duration> {
    end.checked_duration_since(Instant::now())
        .filter(|left| !left.is_zero())
}

/// The guard was false, and the call did not wait, or not any longer. Nothing changed.
#[derive(Clone, Copy, Debug, PartialEq, Eq)]
pub struct Refused;

impl std::fmt::Display for Refused {
    fn fmt(&self, f: &mut std::fmt::Formatter<'_>) -> std::fmt::Result {
        f.write_str("the guard is false")
    }
}

impl std::error::Error for Refused {}
