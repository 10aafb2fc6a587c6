// The monitor `Weights` as a module of Rust, made by `expresso emit` 0.2.0.
// Change the monitor, and not this file. It wants Rust 1.65 and the edition 2021, or later ones.

use std::sync::{Condvar, Mutex, MutexGuard, PoisonError};
use std::time::{Duration, Instant};

/// The monitor `Weights`. Threads share it by reference. A call waits for its guard, unless it tries.
///
/// Its lock guards data `D` too, for the functions that calls are given.
/**
# Plan

```text
plan Weights
keep free >= 0
condition 1 signal: free >= 5
condition 2 signal: free >= 10
condition 3 signal: free >= 15
condition 4 signal: free < LIMIT
block take5: 4 broadcast tested
block take10: 4 broadcast tested
block take15: 4 broadcast tested
block give: 1 signal tested, 2 signal tested, 3 signal tested
```
*/
#[allow(dead_code, non_camel_case_types)]
#[allow(clippy::doc_markdown, clippy::upper_case_acronyms)]
pub struct Weights<D = ()> {
    inner: Mutex<Inner<D>>,
    /// For calls that wait until `free >= 5`.
    can_take5: Condvar,
    /// For calls that wait until `free >= 10`.
    can_take10: Condvar,
    /// For calls that wait until `free >= 15`.
    can_take15: Condvar,
    /// For calls that wait until `free < LIMIT`.
    can_give: Condvar,
}

#[rustfmt::skip]
#[allow(dead_code, clippy::doc_markdown, clippy::style)]
impl Weights {
    /// The constant `LIMIT`.
    pub const LIMIT: i64 = 20;

    /// The monitor at its start.
    #[must_use]
    pub const fn new() -> Self {
        Self::with_data(())
    }
}

#[rustfmt::skip]
#[allow(dead_code, non_snake_case)]
#[allow(clippy::doc_markdown, clippy::style, clippy::too_many_arguments)]
impl<D> Weights<D> {
    /// The monitor at its start, with these data.
    #[must_use]
    pub const fn with_data(data: D) -> Self {
        Self {
            inner: Mutex::new(Inner {
                state: State::START,
                asleep_take5: 0,
                asleep_take10: 0,
                asleep_take15: 0,
                asleep_give: 0,
                data,
            }),
            can_take5: Condvar::new(),
            can_take10: Condvar::new(),
            can_take15: Condvar::new(),
            can_give: Condvar::new(),
        }
    }

    /// The data, which nobody shares now.
    #[must_use]
    pub fn get_mut(&mut self) -> &mut D {
        &mut self.inner.get_mut().unwrap_or_else(PoisonError::into_inner).data
    }

    /// The data, without the monitor.
    #[must_use]
    pub fn into_inner(self) -> D {
        self.inner.into_inner().unwrap_or_else(PoisonError::into_inner).data
    }

    /// Whether the mutex is poisoned, as where a function panicked that a call was given.
    #[must_use]
    pub fn is_poisoned(&self) -> bool {
        self.inner.is_poisoned()
    }

    /// Waits until `free >= 5`.
    pub fn take5(&self) {
        let mut inner = lock(&self.inner);
        while !inner.state.can_take5() {
            inner.asleep_take5 += 1;
            inner = wait(&self.can_take5, inner);
            inner.asleep_take5 -= 1;
        }
        inner.state.run_take5();
        let copy = inner.copy();
        drop(inner);
        if copy.asleep_give > 0 && copy.state.can_give() {
            self.can_give.notify_all();
        }
    }

    /// As [`take5`](Self::take5), and calls `f` with the data under the same lock.
    ///
    /// Where `f` panics no field changes. `f` must not call this monitor.
    pub fn take5_with<R>(&self, f: impl FnOnce(&mut D) -> R) -> R {
        let mut inner = lock(&self.inner);
        while !inner.state.can_take5() {
            inner.asleep_take5 += 1;
            inner = wait(&self.can_take5, inner);
            inner.asleep_take5 -= 1;
        }
        let hand = HandOn(&self.can_take5);
        let mut next = inner.state;
        next.run_take5();
        let result = f(&mut inner.data);
        std::mem::forget(hand);
        inner.state = next;
        let copy = inner.copy();
        drop(inner);
        if copy.asleep_give > 0 && copy.state.can_give() {
            self.can_give.notify_all();
        }
        result
    }

    /// As [`take5`](Self::take5), but does not wait until `free >= 5`.
    ///
    /// # Errors
    ///
    /// [`Refused`] where `free >= 5` is false. Then nothing changes.
    pub fn try_take5(&self) -> Result<(), Refused> {
        let mut inner = lock(&self.inner);
        if !inner.state.can_take5() {
            return Err(Refused);
        }
        inner.state.run_take5();
        let copy = inner.copy();
        drop(inner);
        if copy.asleep_give > 0 && copy.state.can_give() {
            self.can_give.notify_all();
        }
        Ok(())
    }

    /// As [`try_take5`](Self::try_take5), and calls `f` with the data under the same lock.
    ///
    /// Where `f` panics no field changes. `f` must not call this monitor.
    ///
    /// # Errors
    ///
    /// [`Refused`] where `free >= 5` is false. Then nothing changes.
    pub fn try_take5_with<R>(&self, f: impl FnOnce(&mut D) -> R) -> Result<R, Refused> {
        let mut inner = lock(&self.inner);
        if !inner.state.can_take5() {
            return Err(Refused);
        }
        let hand = HandOn(&self.can_take5);
        let mut next = inner.state;
        next.run_take5();
        let result = f(&mut inner.data);
        std::mem::forget(hand);
        inner.state = next;
        let copy = inner.copy();
        drop(inner);
        if copy.asleep_give > 0 && copy.state.can_give() {
            self.can_give.notify_all();
        }
        Ok(result)
    }

    /// As [`take5`](Self::take5), but waits for `free >= 5` no longer than until `end`.
    ///
    /// # Errors
    ///
    /// [`Refused`] where its time is over and `free >= 5` is false. Then nothing changes.
    pub fn take5_until(&self, end: Instant) -> Result<(), Refused> {
        let mut inner = lock(&self.inner);
        while !inner.state.can_take5() {
            let Some(left) = time_left(end) else {
                return Err(Refused);
            };
            inner.asleep_take5 += 1;
            inner = wait_for(&self.can_take5, inner, left);
            inner.asleep_take5 -= 1;
        }
        inner.state.run_take5();
        let copy = inner.copy();
        drop(inner);
        if copy.asleep_give > 0 && copy.state.can_give() {
            self.can_give.notify_all();
        }
        Ok(())
    }

    /// As [`take5_until`](Self::take5_until), and calls `f` with the data under the same lock.
    ///
    /// Where `f` panics no field changes. `f` must not call this monitor.
    ///
    /// # Errors
    ///
    /// [`Refused`] where its time is over and `free >= 5` is false. Then nothing changes.
    pub fn take5_until_with<R>(&self, end: Instant, f: impl FnOnce(&mut D) -> R) -> Result<R, Refused> {
        let mut inner = lock(&self.inner);
        while !inner.state.can_take5() {
            let Some(left) = time_left(end) else {
                return Err(Refused);
            };
            inner.asleep_take5 += 1;
            inner = wait_for(&self.can_take5, inner, left);
            inner.asleep_take5 -= 1;
        }
        let hand = HandOn(&self.can_take5);
        let mut next = inner.state;
        next.run_take5();
        let result = f(&mut inner.data);
        std::mem::forget(hand);
        inner.state = next;
        let copy = inner.copy();
        drop(inner);
        if copy.asleep_give > 0 && copy.state.can_give() {
            self.can_give.notify_all();
        }
        Ok(result)
    }

    /// As [`take5`](Self::take5), but waits for `free >= 5` no longer than `time`.
    ///
    /// # Errors
    ///
    /// [`Refused`] where its time is over and `free >= 5` is false. Then nothing changes.
    pub fn take5_for(&self, time: Duration) -> Result<(), Refused> {
        let Some(end) = Instant::now().checked_add(time) else {
            self.take5();
            return Ok(());
        };
        self.take5_until(end)
    }

    /// As [`take5_for`](Self::take5_for), and calls `f` with the data under the same lock.
    ///
    /// Where `f` panics no field changes. `f` must not call this monitor.
    ///
    /// # Errors
    ///
    /// [`Refused`] where its time is over and `free >= 5` is false. Then nothing changes.
    pub fn take5_for_with<R>(&self, time: Duration, f: impl FnOnce(&mut D) -> R) -> Result<R, Refused> {
        let Some(end) = Instant::now().checked_add(time) else {
            return Ok(self.take5_with(f));
        };
        self.take5_until_with(end, f)
    }

    /// Waits until `free >= 10`.
    pub fn take10(&self) {
        let mut inner = lock(&self.inner);
        while !inner.state.can_take10() {
            inner.asleep_take10 += 1;
            inner = wait(&self.can_take10, inner);
            inner.asleep_take10 -= 1;
        }
        inner.state.run_take10();
        let copy = inner.copy();
        drop(inner);
        if copy.asleep_give > 0 && copy.state.can_give() {
            self.can_give.notify_all();
        }
    }

    /// As [`take10`](Self::take10), and calls `f` with the data under the same lock.
    ///
    /// Where `f` panics no field changes. `f` must not call this monitor.
    pub fn take10_with<R>(&self, f: impl FnOnce(&mut D) -> R) -> R {
        let mut inner = lock(&self.inner);
        while !inner.state.can_take10() {
            inner.asleep_take10 += 1;
            inner = wait(&self.can_take10, inner);
            inner.asleep_take10 -= 1;
        }
        let hand = HandOn(&self.can_take10);
        let mut next = inner.state;
        next.run_take10();
        let result = f(&mut inner.data);
        std::mem::forget(hand);
        inner.state = next;
        let copy = inner.copy();
        drop(inner);
        if copy.asleep_give > 0 && copy.state.can_give() {
            self.can_give.notify_all();
        }
        result
    }

    /// As [`take10`](Self::take10), but does not wait until `free >= 10`.
    ///
    /// # Errors
    ///
    /// [`Refused`] where `free >= 10` is false. Then nothing changes.
    pub fn try_take10(&self) -> Result<(), Refused> {
        let mut inner = lock(&self.inner);
        if !inner.state.can_take10() {
            return Err(Refused);
        }
        inner.state.run_take10();
        let copy = inner.copy();
        drop(inner);
        if copy.asleep_give > 0 && copy.state.can_give() {
            self.can_give.notify_all();
        }
        Ok(())
    }

    /// As [`try_take10`](Self::try_take10), and calls `f` with the data under the same lock.
    ///
    /// Where `f` panics no field changes. `f` must not call this monitor.
    ///
    /// # Errors
    ///
    /// [`Refused`] where `free >= 10` is false. Then nothing changes.
    pub fn try_take10_with<R>(&self, f: impl FnOnce(&mut D) -> R) -> Result<R, Refused> {
        let mut inner = lock(&self.inner);
        if !inner.state.can_take10() {
            return Err(Refused);
        }
        let hand = HandOn(&self.can_take10);
        let mut next = inner.state;
        next.run_take10();
        let result = f(&mut inner.data);
        std::mem::forget(hand);
        inner.state = next;
        let copy = inner.copy();
        drop(inner);
        if copy.asleep_give > 0 && copy.state.can_give() {
            self.can_give.notify_all();
        }
        Ok(result)
    }

    /// As [`take10`](Self::take10), but waits for `free >= 10` no longer than until `end`.
    ///
    /// # Errors
    ///
    /// [`Refused`] where its time is over and `free >= 10` is false. Then nothing changes.
    pub fn take10_until(&self, end: Instant) -> Result<(), Refused> {
        let mut inner = lock(&self.inner);
        while !inner.state.can_take10() {
            let Some(left) = time_left(end) else {
                return Err(Refused);
            };
            inner.asleep_take10 += 1;
            inner = wait_for(&self.can_take10, inner, left);
            inner.asleep_take10 -= 1;
        }
        inner.state.run_take10();
        let copy = inner.copy();
        drop(inner);
        if copy.asleep_give > 0 && copy.state.can_give() {
            self.can_give.notify_all();
        }
        Ok(())
    }

    /// As [`take10_until`](Self::take10_until), and calls `f` with the data under the same lock.
    ///
    /// Where `f` panics no field changes. `f` must not call this monitor.
    ///
    /// # Errors
    ///
    /// [`Refused`] where its time is over and `free >= 10` is false. Then nothing changes.
    pub fn take10_until_with<R>(&self, end: Instant, f: impl FnOnce(&mut D) -> R) -> Result<R, Refused> {
        let mut inner = lock(&self.inner);
        while !inner.state.can_take10() {
            let Some(left) = time_left(end) else {
                return Err(Refused);
            };
            inner.asleep_take10 += 1;
            inner = wait_for(&self.can_take10, inner, left);
            inner.asleep_take10 -= 1;
        }
        let hand = HandOn(&self.can_take10);
        let mut next = inner.state;
        next.run_take10();
        let result = f(&mut inner.data);
        std::mem::forget(hand);
        inner.state = next;
        let copy = inner.copy();
        drop(inner);
        if copy.asleep_give > 0 && copy.state.can_give() {
            self.can_give.notify_all();
        }
        Ok(result)
    }

    /// As [`take10`](Self::take10), but waits for `free >= 10` no longer than `time`.
    ///
    /// # Errors
    ///
    /// [`Refused`] where its time is over and `free >= 10` is false. Then nothing changes.
    pub fn take10_for(&self, time: Duration) -> Result<(), Refused> {
        let Some(end) = Instant::now().checked_add(time) else {
            self.take10();
            return Ok(());
        };
        self.take10_until(end)
    }

    /// As [`take10_for`](Self::take10_for), and calls `f` with the data under the same lock.
    ///
    /// Where `f` panics no field changes. `f` must not call this monitor.
    ///
    /// # Errors
    ///
    /// [`Refused`] where its time is over and `free >= 10` is false. Then nothing changes.
    pub fn take10_for_with<R>(&self, time: Duration, f: impl FnOnce(&mut D) -> R) -> Result<R, Refused> {
        let Some(end) = Instant::now().checked_add(time) else {
            return Ok(self.take10_with(f));
        };
        self.take10_until_with(end, f)
    }

    /// Waits until `free >= 15`.
    pub fn take15(&self) {
        let mut inner = lock(&self.inner);
        while !inner.state.can_take15() {
            inner.asleep_take15 += 1;
            inner = wait(&self.can_take15, inner);
            inner.asleep_take15 -= 1;
        }
        inner.state.run_take15();
        let copy = inner.copy();
        drop(inner);
        if copy.asleep_give > 0 && copy.state.can_give() {
            self.can_give.notify_all();
        }
    }

    /// As [`take15`](Self::take15), and calls `f` with the data under the same lock.
    ///
    /// Where `f` panics no field changes. `f` must not call this monitor.
    pub fn take15_with<R>(&self, f: impl FnOnce(&mut D) -> R) -> R {
        let mut inner = lock(&self.inner);
        while !inner.state.can_take15() {
            inner.asleep_take15 += 1;
            inner = wait(&self.can_take15, inner);
            inner.asleep_take15 -= 1;
        }
        let hand = HandOn(&self.can_take15);
        let mut next = inner.state;
        next.run_take15();
        let result = f(&mut inner.data);
        std::mem::forget(hand);
        inner.state = next;
        let copy = inner.copy();
        drop(inner);
        if copy.asleep_give > 0 && copy.state.can_give() {
            self.can_give.notify_all();
        }
        result
    }

    /// As [`take15`](Self::take15), but does not wait until `free >= 15`.
    ///
    /// # Errors
    ///
    /// [`Refused`] where `free >= 15` is false. Then nothing changes.
    pub fn try_take15(&self) -> Result<(), Refused> {
        let mut inner = lock(&self.inner);
        if !inner.state.can_take15() {
            return Err(Refused);
        }
        inner.state.run_take15();
        let copy = inner.copy();
        drop(inner);
        if copy.asleep_give > 0 && copy.state.can_give() {
            self.can_give.notify_all();
        }
        Ok(())
    }

    /// As [`try_take15`](Self::try_take15), and calls `f` with the data under the same lock.
    ///
    /// Where `f` panics no field changes. `f` must not call this monitor.
    ///
    /// # Errors
    ///
    /// [`Refused`] where `free >= 15` is false. Then nothing changes.
    pub fn try_take15_with<R>(&self, f: impl FnOnce(&mut D) -> R) -> Result<R, Refused> {
        let mut inner = lock(&self.inner);
        if !inner.state.can_take15() {
            return Err(Refused);
        }
        let hand = HandOn(&self.can_take15);
        let mut next = inner.state;
        next.run_take15();
        let result = f(&mut inner.data);
        std::mem::forget(hand);
        inner.state = next;
        let copy = inner.copy();
        drop(inner);
        if copy.asleep_give > 0 && copy.state.can_give() {
            self.can_give.notify_all();
        }
        Ok(result)
    }

    /// As [`take15`](Self::take15), but waits for `free >= 15` no longer than until `end`.
    ///
    /// # Errors
    ///
    /// [`Refused`] where its time is over and `free >= 15` is false. Then nothing changes.
    pub fn take15_until(&self, end: Instant) -> Result<(), Refused> {
        let mut inner = lock(&self.inner);
        while !inner.state.can_take15() {
            let Some(left) = time_left(end) else {
                return Err(Refused);
            };
            inner.asleep_take15 += 1;
            inner = wait_for(&self.can_take15, inner, left);
            inner.asleep_take15 -= 1;
        }
        inner.state.run_take15();
        let copy = inner.copy();
        drop(inner);
        if copy.asleep_give > 0 && copy.state.can_give() {
            self.can_give.notify_all();
        }
        Ok(())
    }

    /// As [`take15_until`](Self::take15_until), and calls `f` with the data under the same lock.
    ///
    /// Where `f` panics no field changes. `f` must not call this monitor.
    ///
    /// # Errors
    ///
    /// [`Refused`] where its time is over and `free >= 15` is false. Then nothing changes.
    pub fn take15_until_with<R>(&self, end: Instant, f: impl FnOnce(&mut D) -> R) -> Result<R, Refused> {
        let mut inner = lock(&self.inner);
        while !inner.state.can_take15() {
            let Some(left) = time_left(end) else {
                return Err(Refused);
            };
            inner.asleep_take15 += 1;
            inner = wait_for(&self.can_take15, inner, left);
            inner.asleep_take15 -= 1;
        }
        let hand = HandOn(&self.can_take15);
        let mut next = inner.state;
        next.run_take15();
        let result = f(&mut inner.data);
        std::mem::forget(hand);
        inner.state = next;
        let copy = inner.copy();
        drop(inner);
        if copy.asleep_give > 0 && copy.state.can_give() {
            self.can_give.notify_all();
        }
        Ok(result)
    }

    /// As [`take15`](Self::take15), but waits for `free >= 15` no longer than `time`.
    ///
    /// # Errors
    ///
    /// [`Refused`] where its time is over and `free >= 15` is false. Then nothing changes.
    pub fn take15_for(&self, time: Duration) -> Result<(), Refused> {
        let Some(end) = Instant::now().checked_add(time) else {
            self.take15();
            return Ok(());
        };
        self.take15_until(end)
    }

    /// As [`take15_for`](Self::take15_for), and calls `f` with the data under the same lock.
    ///
    /// Where `f` panics no field changes. `f` must not call this monitor.
    ///
    /// # Errors
    ///
    /// [`Refused`] where its time is over and `free >= 15` is false. Then nothing changes.
    pub fn take15_for_with<R>(&self, time: Duration, f: impl FnOnce(&mut D) -> R) -> Result<R, Refused> {
        let Some(end) = Instant::now().checked_add(time) else {
            return Ok(self.take15_with(f));
        };
        self.take15_until_with(end, f)
    }

    /// Waits until `free < LIMIT`.
    pub fn give(&self) {
        let mut inner = lock(&self.inner);
        while !inner.state.can_give() {
            inner.asleep_give += 1;
            inner = wait(&self.can_give, inner);
            inner.asleep_give -= 1;
        }
        inner.state.run_give();
        let copy = inner.copy();
        drop(inner);
        if copy.asleep_take5 > 0 && copy.state.can_take5() {
            self.can_take5.notify_one();
        }
        if copy.asleep_take10 > 0 && copy.state.can_take10() {
            self.can_take10.notify_one();
        }
        if copy.asleep_take15 > 0 && copy.state.can_take15() {
            self.can_take15.notify_one();
        }
    }

    /// As [`give`](Self::give), and calls `f` with the data under the same lock.
    ///
    /// Where `f` panics no field changes. `f` must not call this monitor.
    pub fn give_with<R>(&self, f: impl FnOnce(&mut D) -> R) -> R {
        let mut inner = lock(&self.inner);
        while !inner.state.can_give() {
            inner.asleep_give += 1;
            inner = wait(&self.can_give, inner);
            inner.asleep_give -= 1;
        }
        let hand = HandOn(&self.can_give);
        let mut next = inner.state;
        next.run_give();
        let result = f(&mut inner.data);
        std::mem::forget(hand);
        inner.state = next;
        let copy = inner.copy();
        drop(inner);
        if copy.asleep_take5 > 0 && copy.state.can_take5() {
            self.can_take5.notify_one();
        }
        if copy.asleep_take10 > 0 && copy.state.can_take10() {
            self.can_take10.notify_one();
        }
        if copy.asleep_take15 > 0 && copy.state.can_take15() {
            self.can_take15.notify_one();
        }
        result
    }

    /// As [`give`](Self::give), but does not wait until `free < LIMIT`.
    ///
    /// # Errors
    ///
    /// [`Refused`] where `free < LIMIT` is false. Then nothing changes.
    pub fn try_give(&self) -> Result<(), Refused> {
        let mut inner = lock(&self.inner);
        if !inner.state.can_give() {
            return Err(Refused);
        }
        inner.state.run_give();
        let copy = inner.copy();
        drop(inner);
        if copy.asleep_take5 > 0 && copy.state.can_take5() {
            self.can_take5.notify_one();
        }
        if copy.asleep_take10 > 0 && copy.state.can_take10() {
            self.can_take10.notify_one();
        }
        if copy.asleep_take15 > 0 && copy.state.can_take15() {
            self.can_take15.notify_one();
        }
        Ok(())
    }

    /// As [`try_give`](Self::try_give), and calls `f` with the data under the same lock.
    ///
    /// Where `f` panics no field changes. `f` must not call this monitor.
    ///
    /// # Errors
    ///
    /// [`Refused`] where `free < LIMIT` is false. Then nothing changes.
    pub fn try_give_with<R>(&self, f: impl FnOnce(&mut D) -> R) -> Result<R, Refused> {
        let mut inner = lock(&self.inner);
        if !inner.state.can_give() {
            return Err(Refused);
        }
        let hand = HandOn(&self.can_give);
        let mut next = inner.state;
        next.run_give();
        let result = f(&mut inner.data);
        std::mem::forget(hand);
        inner.state = next;
        let copy = inner.copy();
        drop(inner);
        if copy.asleep_take5 > 0 && copy.state.can_take5() {
            self.can_take5.notify_one();
        }
        if copy.asleep_take10 > 0 && copy.state.can_take10() {
            self.can_take10.notify_one();
        }
        if copy.asleep_take15 > 0 && copy.state.can_take15() {
            self.can_take15.notify_one();
        }
        Ok(result)
    }

    /// As [`give`](Self::give), but waits for `free < LIMIT` no longer than until `end`.
    ///
    /// # Errors
    ///
    /// [`Refused`] where its time is over and `free < LIMIT` is false. Then nothing changes.
    pub fn give_until(&self, end: Instant) -> Result<(), Refused> {
        let mut inner = lock(&self.inner);
        while !inner.state.can_give() {
            let Some(left) = time_left(end) else {
                return Err(Refused);
            };
            inner.asleep_give += 1;
            inner = wait_for(&self.can_give, inner, left);
            inner.asleep_give -= 1;
        }
        inner.state.run_give();
        let copy = inner.copy();
        drop(inner);
        if copy.asleep_take5 > 0 && copy.state.can_take5() {
            self.can_take5.notify_one();
        }
        if copy.asleep_take10 > 0 && copy.state.can_take10() {
            self.can_take10.notify_one();
        }
        if copy.asleep_take15 > 0 && copy.state.can_take15() {
            self.can_take15.notify_one();
        }
        Ok(())
    }

    /// As [`give_until`](Self::give_until), and calls `f` with the data under the same lock.
    ///
    /// Where `f` panics no field changes. `f` must not call this monitor.
    ///
    /// # Errors
    ///
    /// [`Refused`] where its time is over and `free < LIMIT` is false. Then nothing changes.
    pub fn give_until_with<R>(&self, end: Instant, f: impl FnOnce(&mut D) -> R) -> Result<R, Refused> {
        let mut inner = lock(&self.inner);
        while !inner.state.can_give() {
            let Some(left) = time_left(end) else {
                return Err(Refused);
            };
            inner.asleep_give += 1;
            inner = wait_for(&self.can_give, inner, left);
            inner.asleep_give -= 1;
        }
        let hand = HandOn(&self.can_give);
        let mut next = inner.state;
        next.run_give();
        let result = f(&mut inner.data);
        std::mem::forget(hand);
        inner.state = next;
        let copy = inner.copy();
        drop(inner);
        if copy.asleep_take5 > 0 && copy.state.can_take5() {
            self.can_take5.notify_one();
        }
        if copy.asleep_take10 > 0 && copy.state.can_take10() {
            self.can_take10.notify_one();
        }
        if copy.asleep_take15 > 0 && copy.state.can_take15() {
            self.can_take15.notify_one();
        }
        Ok(result)
    }

    /// As [`give`](Self::give), but waits for `free < LIMIT` no longer than `time`.
    ///
    /// # Errors
    ///
    /// [`Refused`] where its time is over and `free < LIMIT` is false. Then nothing changes.
    pub fn give_for(&self, time: Duration) -> Result<(), Refused> {
        let Some(end) = Instant::now().checked_add(time) else {
            self.give();
            return Ok(());
        };
        self.give_until(end)
    }

    /// As [`give_for`](Self::give_for), and calls `f` with the data under the same lock.
    ///
    /// Where `f` panics no field changes. `f` must not call this monitor.
    ///
    /// # Errors
    ///
    /// [`Refused`] where its time is over and `free < LIMIT` is false. Then nothing changes.
    pub fn give_for_with<R>(&self, time: Duration, f: impl FnOnce(&mut D) -> R) -> Result<R, Refused> {
        let Some(end) = Instant::now().checked_add(time) else {
            return Ok(self.give_with(f));
        };
        self.give_until_with(end, f)
    }
}

impl Default for Weights {
    fn default() -> Self {
        Self::new()
    }
}

impl<D> std::fmt::Debug for Weights<D> {
    fn fmt(&self, f: &mut std::fmt::Formatter<'_>) -> std::fmt::Result {
        let state = match self.inner.try_lock() {
            Ok(inner) => Some(inner.state),
            Err(std::sync::TryLockError::Poisoned(inner)) => Some(inner.into_inner().state),
            Err(std::sync::TryLockError::WouldBlock) => None,
        };
        let mut text = f.debug_struct("Weights");
        match state {
            Some(state) => text.field("state", &state),
            None => text.field("state", &format_args!("<locked>")),
        };
        text.finish_non_exhaustive()
    }
}

/// What the mutex guards: the fields, how many calls sleep on each condition, and the data.
#[allow(dead_code)]
struct Inner<D = ()> {
    state: State,
    asleep_take5: usize,
    asleep_take10: usize,
    asleep_take15: usize,
    asleep_give: usize,
    data: D,
}

impl<D> Inner<D> {
    /// All but the data.
    #[allow(dead_code)]
    fn copy(&self) -> Inner {
        Inner {
            state: self.state,
            asleep_take5: self.asleep_take5,
            asleep_take10: self.asleep_take10,
            asleep_take15: self.asleep_take15,
            asleep_give: self.asleep_give,
            data: (),
        }
    }
}

/// The fields of the monitor.
#[derive(Clone, Copy, Debug)]
#[allow(dead_code)]
struct State {
    free: i64,
}

// The guards and bodies, with expressions as the monitor has them.
#[rustfmt::skip]
#[allow(unused, unused_comparisons, clippy::all, clippy::pedantic)]
impl State {
    const START: Self = Self {
        free: 0,
    };

    fn can_take5(&self) -> bool {
        self.free >= 5
    }

    fn run_take5(&mut self) {
        self.free = self.free - 5;
    }

    fn can_take10(&self) -> bool {
        self.free >= 10
    }

    fn run_take10(&mut self) {
        self.free = self.free - 10;
    }

    fn can_take15(&self) -> bool {
        self.free >= 15
    }

    fn run_take15(&mut self) {
        self.free = self.free - 15;
    }

    fn can_give(&self) -> bool {
        self.free < Weights::LIMIT
    }

    fn run_give(&mut self) {
        self.free = self.free + 1;
    }
}

/// Locks the monitor, poisoned or not: where a function panicked its block changed no field.
fn lock<D>(inner: &Mutex<Inner<D>>) -> MutexGuard<'_, Inner<D>> {
    inner.lock().unwrap_or_else(PoisonError::into_inner)
}

/// Gives the lock back and waits on the condition, in one step, and takes the lock again.
fn wait<'a, D>(condition: &Condvar, inner: MutexGuard<'a, Inner<D>>) -> MutexGuard<'a, Inner<D>> {
    condition
        .wait(inner)
        .unwrap_or_else(PoisonError::into_inner)
}

/// Wakes one call that waits on the condition, where a block ends that changed nothing.
#[allow(dead_code)]
struct HandOn<'a>(&'a Condvar);

impl Drop for HandOn<'_> {
    fn drop(&mut self) {
        self.0.notify_one();
    }
}

/// As `wait`, but no longer than this.
fn wait_for<'a, D>(
    condition: &Condvar,
    inner: MutexGuard<'a, Inner<D>>,
    left: Duration,
) -> MutexGuard<'a, Inner<D>> {
    condition
        .wait_timeout(inner, left)
        .unwrap_or_else(PoisonError::into_inner)
        .0
}

/// How long it is until then, or `None` where it has come.
fn time_left(end: Instant) -> Option<Duration> {
    end.checked_duration_since(Instant::now())
        .filter(|left| !left.is_zero())
}

/// The guard was false, and the call did not wait, or not any longer. Nothing changed.
#[derive(Clone, Copy, Debug, PartialEq, Eq)]
pub struct Refused;

impl std::fmt::Display for Refused {
    fn fmt(&self, f: &mut std::fmt::Formatter<'_>) -> std::fmt::Result {
        f.write_str("the guard is false")
    }
}

impl std::error::Error for Refused {}
