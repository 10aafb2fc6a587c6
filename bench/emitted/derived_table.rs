// The monitor `Table` as a module of Rust, made by `expresso emit` 0.2.0.
// Change the monitor, and not this file. It wants Rust 1.65 and the edition 2021, or later ones.

use std::sync::{Condvar, Mutex, MutexGuard, PoisonError};
use std::time::{Duration, Instant};

/// The monitor `Table`. Threads share it by reference. A call waits for its guard, unless it tries.
///
/// Its lock guards data `D` too, for the functions that calls are given.
/**
# Plan

```text
plan Table
keep a >= 0
keep a >= -1
keep a <= 3
keep a <= 4
keep b >= 0
keep b >= -1
keep b <= 2
keep b <= 3
keep c >= 0
keep c >= -1
keep c <= 3
keep c <= 4
condition 1 signal: a == 0 && b == 0
condition 2 signal: b == 0 && c == 0
condition 3 signal: c == 0 && a == 0
condition 4 signal: a == 1 && b == 1
condition 5 signal: b == 2 && c == 2
condition 6 signal: c == 3 && a == 3
block eat1: 4 signal
block eat2: 5 signal
block eat3: 6 signal
block think1: 1 signal, 2 signal tested, 3 signal tested
block think2: 1 signal tested, 2 signal, 3 signal tested
block think3: 1 signal tested, 2 signal tested, 3 signal
```
*/
#[allow(dead_code, non_camel_case_types)]
#[allow(clippy::doc_markdown, clippy::upper_case_acronyms)]
pub struct Table<D = ()> {
    inner: Mutex<Inner<D>>,
    /// For calls that wait until `a == 0 && b == 0`.
    can_eat1: Condvar,
    /// For calls that wait until `b == 0 && c == 0`.
    can_eat2: Condvar,
    /// For calls that wait until `c == 0 && a == 0`.
    can_eat3: Condvar,
    /// For calls that wait until `a == 1 && b == 1`.
    can_think1: Condvar,
    /// For calls that wait until `b == 2 && c == 2`.
    can_think2: Condvar,
    /// For calls that wait until `c == 3 && a == 3`.
    can_think3: Condvar,
}

#[rustfmt::skip]
#[allow(dead_code, clippy::doc_markdown, clippy::style)]
impl Table {
    /// The monitor at its start.
    #[must_use]
    pub const fn new() -> Self {
        Self::with_data(())
    }
}

#[rustfmt::skip]
#[allow(dead_code, non_snake_case)]
#[allow(clippy::doc_markdown, clippy::style, clippy::too_many_arguments)]
impl<D> Table<D> {
    /// The monitor at its start, with these data.
    #[must_use]
    pub const fn with_data(data: D) -> Self {
        Self {
            inner: Mutex::new(Inner {
                state: State::START,
                asleep_eat1: 0,
                asleep_eat2: 0,
                asleep_eat3: 0,
                asleep_think1: 0,
                asleep_think2: 0,
                asleep_think3: 0,
                data,
            }),
            can_eat1: Condvar::new(),
            can_eat2: Condvar::new(),
            can_eat3: Condvar::new(),
            can_think1: Condvar::new(),
            can_think2: Condvar::new(),
            can_think3: Condvar::new(),
        }
    }

    /// The data, which nobody shares now.
    #[must_use]
    pub fn get_mut(&mut self) -> &mut D {
        &mut self.inner.get_mut().unwrap_or_else(PoisonError::into_inner).data
    }

    /// The data, without the monitor.
    #[must_use]
    pub fn into_inner(self) -> D {
        self.inner.into_inner().unwrap_or_else(PoisonError::into_inner).data
    }

    /// Whether the mutex is poisoned, as where a function panicked that a call was given.
    #[must_use]
    pub fn is_poisoned(&self) -> bool {
        self.inner.is_poisoned()
    }

    /// Waits until `a == 0 && b == 0`.
    pub fn eat1(&self) {
        let mut inner = lock(&self.inner);
        while !inner.state.can_eat1() {
            inner.asleep_eat1 += 1;
            inner = wait(&self.can_eat1, inner);
            inner.asleep_eat1 -= 1;
        }
        inner.state.run_eat1();
        let copy = inner.copy();
        drop(inner);
        if copy.asleep_think1 > 0 {
            self.can_think1.notify_one();
        }
    }

    /// As [`eat1`](Self::eat1), and calls `f` with the data under the same lock.
    ///
    /// Where `f` panics no field changes. `f` must not call this monitor.
    pub fn eat1_with<R>(&self, f: impl FnOnce(&mut D) -> R) -> R {
        let mut inner = lock(&self.inner);
        while !inner.state.can_eat1() {
            inner.asleep_eat1 += 1;
            inner = wait(&self.can_eat1, inner);
            inner.asleep_eat1 -= 1;
        }
        let hand = HandOn(&self.can_eat1);
        let mut next = inner.state;
        next.run_eat1();
        let result = f(&mut inner.data);
        std::mem::forget(hand);
        inner.state = next;
        let copy = inner.copy();
        drop(inner);
        if copy.asleep_think1 > 0 {
            self.can_think1.notify_one();
        }
        result
    }

    /// As [`eat1`](Self::eat1), but does not wait until `a == 0 && b == 0`.
    ///
    /// # Errors
    ///
    /// [`Refused`] where `a == 0 && b == 0` is false. Then nothing changes.
    pub fn try_eat1(&self) -> Result<(), Refused> {
        let mut inner = lock(&self.inner);
        if !inner.state.can_eat1() {
            return Err(Refused);
        }
        inner.state.run_eat1();
        let copy = inner.copy();
        drop(inner);
        if copy.asleep_think1 > 0 {
            self.can_think1.notify_one();
        }
        Ok(())
    }

    /// As [`try_eat1`](Self::try_eat1), and calls `f` with the data under the same lock.
    ///
    /// Where `f` panics no field changes. `f` must not call this monitor.
    ///
    /// # Errors
    ///
    /// [`Refused`] where `a == 0 && b == 0` is false. Then nothing changes.
    pub fn try_eat1_with<R>(&self, f: impl FnOnce(&mut D) -> R) -> Result<R, Refused> {
        let mut inner = lock(&self.inner);
        if !inner.state.can_eat1() {
            return Err(Refused);
        }
        let hand = HandOn(&self.can_eat1);
        let mut next = inner.state;
        next.run_eat1();
        let result = f(&mut inner.data);
        std::mem::forget(hand);
        inner.state = next;
        let copy = inner.copy();
        drop(inner);
        if copy.asleep_think1 > 0 {
            self.can_think1.notify_one();
        }
        Ok(result)
    }

    /// As [`eat1`](Self::eat1), but waits for `a == 0 && b == 0` no longer than until `end`.
    ///
    /// # Errors
    ///
    /// [`Refused`] where its time is over and `a == 0 && b == 0` is false. Then nothing changes.
    pub fn eat1_until(&self, end: Instant) -> Result<(), Refused> {
        let mut inner = lock(&self.inner);
        while !inner.state.can_eat1() {
            let Some(left) = time_left(end) else {
                return Err(Refused);
            };
            inner.asleep_eat1 += 1;
            inner = wait_for(&self.can_eat1, inner, left);
            inner.asleep_eat1 -= 1;
        }
        inner.state.run_eat1();
        let copy = inner.copy();
        drop(inner);
        if copy.asleep_think1 > 0 {
            self.can_think1.notify_one();
        }
        Ok(())
    }

    /// As [`eat1_until`](Self::eat1_until), and calls `f` with the data under the same lock.
    ///
    /// Where `f` panics no field changes. `f` must not call this monitor.
    ///
    /// # Errors
    ///
    /// [`Refused`] where its time is over and `a == 0 && b == 0` is false. Then nothing changes.
    pub fn eat1_until_with<R>(&self, end: Instant, f: impl FnOnce(&mut D) -> R) -> Result<R, Refused> {
        let mut inner = lock(&self.inner);
        while !inner.state.can_eat1() {
            let Some(left) = time_left(end) else {
                return Err(Refused);
            };
            inner.asleep_eat1 += 1;
            inner = wait_for(&self.can_eat1, inner, left);
            inner.asleep_eat1 -= 1;
        }
        let hand = HandOn(&self.can_eat1);
        let mut next = inner.state;
        next.run_eat1();
        let result = f(&mut inner.data);
        std::mem::forget(hand);
        inner.state = next;
        let copy = inner.copy();
        drop(inner);
        if copy.asleep_think1 > 0 {
            self.can_think1.notify_one();
        }
        Ok(result)
    }

    /// As [`eat1`](Self::eat1), but waits for `a == 0 && b == 0` no longer than `time`.
    ///
    /// # Errors
    ///
    /// [`Refused`] where its time is over and `a == 0 && b == 0` is false. Then nothing changes.
    pub fn eat1_for(&self, time: Duration) -> Result<(), Refused> {
        let Some(end) = Instant::now().checked_add(time) else {
            self.eat1();
            return Ok(());
        };
        self.eat1_until(end)
    }

    /// As [`eat1_for`](Self::eat1_for), and calls `f` with the data under the same lock.
    ///
    /// Where `f` panics no field changes. `f` must not call this monitor.
    ///
    /// # Errors
    ///
    /// [`Refused`] where its time is over and `a == 0 && b == 0` is false. Then nothing changes.
    pub fn eat1_for_with<R>(&self, time: Duration, f: impl FnOnce(&mut D) -> R) -> Result<R, Refused> {
        let Some(end) = Instant::now().checked_add(time) else {
            return Ok(self.eat1_with(f));
        };
        self.eat1_until_with(end, f)
    }

    /// Waits until `b == 0 && c == 0`.
    pub fn eat2(&self) {
        let mut inner = lock(&self.inner);
        while !inner.state.can_eat2() {
            inner.asleep_eat2 += 1;
            inner = wait(&self.can_eat2, inner);
            inner.asleep_eat2 -= 1;
        }
        inner.state.run_eat2();
        let copy = inner.copy();
        drop(inner);
        if copy.asleep_think2 > 0 {
            self.can_think2.notify_one();
        }
    }

    /// As [`eat2`](Self::eat2), and calls `f` with the data under the same lock.
    ///
    /// Where `f` panics no field changes. `f` must not call this monitor.
    pub fn eat2_with<R>(&self, f: impl FnOnce(&mut D) -> R) -> R {
        let mut inner = lock(&self.inner);
        while !inner.state.can_eat2() {
            inner.asleep_eat2 += 1;
            inner = wait(&self.can_eat2, inner);
            inner.asleep_eat2 -= 1;
        }
        let hand = HandOn(&self.can_eat2);
        let mut next = inner.state;
        next.run_eat2();
        let result = f(&mut inner.data);
        std::mem::forget(hand);
        inner.state = next;
        let copy = inner.copy();
        drop(inner);
        if copy.asleep_think2 > 0 {
            self.can_think2.notify_one();
        }
        result
    }

    /// As [`eat2`](Self::eat2), but does not wait until `b == 0 && c == 0`.
    ///
    /// # Errors
    ///
    /// [`Refused`] where `b == 0 && c == 0` is false. Then nothing changes.
    pub fn try_eat2(&self) -> Result<(), Refused> {
        let mut inner = lock(&self.inner);
        if !inner.state.can_eat2() {
            return Err(Refused);
        }
        inner.state.run_eat2();
        let copy = inner.copy();
        drop(inner);
        if copy.asleep_think2 > 0 {
            self.can_think2.notify_one();
        }
        Ok(())
    }

    /// As [`try_eat2`](Self::try_eat2), and calls `f` with the data under the same lock.
    ///
    /// Where `f` panics no field changes. `f` must not call this monitor.
    ///
    /// # Errors
    ///
    /// [`Refused`] where `b == 0 && c == 0` is false. Then nothing changes.
    pub fn try_eat2_with<R>(&self, f: impl FnOnce(&mut D) -> R) -> Result<R, Refused> {
        let mut inner = lock(&self.inner);
        if !inner.state.can_eat2() {
            return Err(Refused);
        }
        let hand = HandOn(&self.can_eat2);
        let mut next = inner.state;
        next.run_eat2();
        let result = f(&mut inner.data);
        std::mem::forget(hand);
        inner.state = next;
        let copy = inner.copy();
        drop(inner);
        if copy.asleep_think2 > 0 {
            self.can_think2.notify_one();
        }
        Ok(result)
    }

    /// As [`eat2`](Self::eat2), but waits for `b == 0 && c == 0` no longer than until `end`.
    ///
    /// # Errors
    ///
    /// [`Refused`] where its time is over and `b == 0 && c == 0` is false. Then nothing changes.
    pub fn eat2_until(&self, end: Instant) -> Result<(), Refused> {
        let mut inner = lock(&self.inner);
        while !inner.state.can_eat2() {
            let Some(left) = time_left(end) else {
                return Err(Refused);
            };
            inner.asleep_eat2 += 1;
            inner = wait_for(&self.can_eat2, inner, left);
            inner.asleep_eat2 -= 1;
        }
        inner.state.run_eat2();
        let copy = inner.copy();
        drop(inner);
        if copy.asleep_think2 > 0 {
            self.can_think2.notify_one();
        }
        Ok(())
    }

    /// As [`eat2_until`](Self::eat2_until), and calls `f` with the data under the same lock.
    ///
    /// Where `f` panics no field changes. `f` must not call this monitor.
    ///
    /// # Errors
    ///
    /// [`Refused`] where its time is over and `b == 0 && c == 0` is false. Then nothing changes.
    pub fn eat2_until_with<R>(&self, end: Instant, f: impl FnOnce(&mut D) -> R) -> Result<R, Refused> {
        let mut inner = lock(&self.inner);
        while !inner.state.can_eat2() {
            let Some(left) = time_left(end) else {
                return Err(Refused);
            };
            inner.asleep_eat2 += 1;
            inner = wait_for(&self.can_eat2, inner, left);
            inner.asleep_eat2 -= 1;
        }
        let hand = HandOn(&self.can_eat2);
        let mut next = inner.state;
        next.run_eat2();
        let result = f(&mut inner.data);
        std::mem::forget(hand);
        inner.state = next;
        let copy = inner.copy();
        drop(inner);
        if copy.asleep_think2 > 0 {
            self.can_think2.notify_one();
        }
        Ok(result)
    }

    /// As [`eat2`](Self::eat2), but waits for `b == 0 && c == 0` no longer than `time`.
    ///
    /// # Errors
    ///
    /// [`Refused`] where its time is over and `b == 0 && c == 0` is false. Then nothing changes.
    pub fn eat2_for(&self, time: Duration) -> Result<(), Refused> {
        let Some(end) = Instant::now().checked_add(time) else {
            self.eat2();
            return Ok(());
        };
        self.eat2_until(end)
    }

    /// As [`eat2_for`](Self::eat2_for), and calls `f` with the data under the same lock.
    ///
    /// Where `f` panics no field changes. `f` must not call this monitor.
    ///
    /// # Errors
    ///
    /// [`Refused`] where its time is over and `b == 0 && c == 0` is false. Then nothing changes.
    pub fn eat2_for_with<R>(&self, time: Duration, f: impl FnOnce(&mut D) -> R) -> Result<R, Refused> {
        let Some(end) = Instant::now().checked_add(time) else {
            return Ok(self.eat2_with(f));
        };
        self.eat2_until_with(end, f)
    }

    /// Waits until `c == 0 && a == 0`.
    pub fn eat3(&self) {
        let mut inner = lock(&self.inner);
        while !inner.state.can_eat3() {
            inner.asleep_eat3 += 1;
            inner = wait(&self.can_eat3, inner);
            inner.asleep_eat3 -= 1;
        }
        inner.state.run_eat3();
        let copy = inner.copy();
        drop(inner);
        if copy.asleep_think3 > 0 {
            self.can_think3.notify_one();
        }
    }

    /// As [`eat3`](Self::eat3), and calls `f` with the data under the same lock.
    ///
    /// Where `f` panics no field changes. `f` must not call this monitor.
    pub fn eat3_with<R>(&self, f: impl FnOnce(&mut D) -> R) -> R {
        let mut inner = lock(&self.inner);
        while !inner.state.can_eat3() {
            inner.asleep_eat3 += 1;
            inner = wait(&self.can_eat3, inner);
            inner.asleep_eat3 -= 1;
        }
        let hand = HandOn(&self.can_eat3);
        let mut next = inner.state;
        next.run_eat3();
        let result = f(&mut inner.data);
        std::mem::forget(hand);
        inner.state = next;
        let copy = inner.copy();
        drop(inner);
        if copy.asleep_think3 > 0 {
            self.can_think3.notify_one();
        }
        result
    }

    /// As [`eat3`](Self::eat3), but does not wait until `c == 0 && a == 0`.
    ///
    /// # Errors
    ///
    /// [`Refused`] where `c == 0 && a == 0` is false. Then nothing changes.
    pub fn try_eat3(&self) -> Result<(), Refused> {
        let mut inner = lock(&self.inner);
        if !inner.state.can_eat3() {
            return Err(Refused);
        }
        inner.state.run_eat3();
        let copy = inner.copy();
        drop(inner);
        if copy.asleep_think3 > 0 {
            self.can_think3.notify_one();
        }
        Ok(())
    }

    /// As [`try_eat3`](Self::try_eat3), and calls `f` with the data under the same lock.
    ///
    /// Where `f` panics no field changes. `f` must not call this monitor.
    ///
    /// # Errors
    ///
    /// [`Refused`] where `c == 0 && a == 0` is false. Then nothing changes.
    pub fn try_eat3_with<R>(&self, f: impl FnOnce(&mut D) -> R) -> Result<R, Refused> {
        let mut inner = lock(&self.inner);
        if !inner.state.can_eat3() {
            return Err(Refused);
        }
        let hand = HandOn(&self.can_eat3);
        let mut next = inner.state;
        next.run_eat3();
        let result = f(&mut inner.data);
        std::mem::forget(hand);
        inner.state = next;
        let copy = inner.copy();
        drop(inner);
        if copy.asleep_think3 > 0 {
            self.can_think3.notify_one();
        }
        Ok(result)
    }

    /// As [`eat3`](Self::eat3), but waits for `c == 0 && a == 0` no longer than until `end`.
    ///
    /// # Errors
    ///
    /// [`Refused`] where its time is over and `c == 0 && a == 0` is false. Then nothing changes.
    pub fn eat3_until(&self, end: Instant) -> Result<(), Refused> {
        let mut inner = lock(&self.inner);
        while !inner.state.can_eat3() {
            let Some(left) = time_left(end) else {
                return Err(Refused);
            };
            inner.asleep_eat3 += 1;
            inner = wait_for(&self.can_eat3, inner, left);
            inner.asleep_eat3 -= 1;
        }
        inner.state.run_eat3();
        let copy = inner.copy();
        drop(inner);
        if copy.asleep_think3 > 0 {
            self.can_think3.notify_one();
        }
        Ok(())
    }

    /// As [`eat3_until`](Self::eat3_until), and calls `f` with the data under the same lock.
    ///
    /// Where `f` panics no field changes. `f` must not call this monitor.
    ///
    /// # Errors
    ///
    /// [`Refused`] where its time is over and `c == 0 && a == 0` is false. Then nothing changes.
    pub fn eat3_until_with<R>(&self, end: Instant, f: impl FnOnce(&mut D) -> R) -> Result<R, Refused> {
        let mut inner = lock(&self.inner);
        while !inner.state.can_eat3() {
            let Some(left) = time_left(end) else {
                return Err(Refused);
            };
            inner.asleep_eat3 += 1;
            inner = wait_for(&self.can_eat3, inner, left);
            inner.asleep_eat3 -= 1;
        }
        let hand = HandOn(&self.can_eat3);
        let mut next = inner.state;
        next.run_eat3();
        let result = f(&mut inner.data);
        std::mem::forget(hand);
        inner.state = next;
        let copy = inner.copy();
        drop(inner);
        if copy.asleep_think3 > 0 {
            self.can_think3.notify_one();
        }
        Ok(result)
    }

    /// As [`eat3`](Self::eat3), but waits for `c == 0 && a == 0` no longer than `time`.
    ///
    /// # Errors
    ///
    /// [`Refused`] where its time is over and `c == 0 && a == 0` is false. Then nothing changes.
    pub fn eat3_for(&self, time: Duration) -> Result<(), Refused> {
        let Some(end) = Instant::now().checked_add(time) else {
            self.eat3();
            return Ok(());
        };
        self.eat3_until(end)
    }

    /// As [`eat3_for`](Self::eat3_for), and calls `f` with the data under the same lock.
    ///
    /// Where `f` panics no field changes. `f` must not call this monitor.
    ///
    /// # Errors
    ///
    /// [`Refused`] where its time is over and `c == 0 && a == 0` is false. Then nothing changes.
    pub fn eat3_for_with<R>(&self, time: Duration, f: impl FnOnce(&mut D) -> R) -> Result<R, Refused> {
        let Some(end) = Instant::now().checked_add(time) else {
            return Ok(self.eat3_with(f));
        };
        self.eat3_until_with(end, f)
    }

    /// Waits until `a == 1 && b == 1`.
    pub fn think1(&self) {
        let mut inner = lock(&self.inner);
        while !inner.state.can_think1() {
            inner.asleep_think1 += 1;
            inner = wait(&self.can_think1, inner);
            inner.asleep_think1 -= 1;
        }
        inner.state.run_think1();
        let copy = inner.copy();
        drop(inner);
        if copy.asleep_eat1 > 0 {
            self.can_eat1.notify_one();
        }
        if copy.asleep_eat2 > 0 && copy.state.can_eat2() {
            self.can_eat2.notify_one();
        }
        if copy.asleep_eat3 > 0 && copy.state.can_eat3() {
            self.can_eat3.notify_one();
        }
    }

    /// As [`think1`](Self::think1), and calls `f` with the data under the same lock.
    ///
    /// Where `f` panics no field changes. `f` must not call this monitor.
    pub fn think1_with<R>(&self, f: impl FnOnce(&mut D) -> R) -> R {
        let mut inner = lock(&self.inner);
        while !inner.state.can_think1() {
            inner.asleep_think1 += 1;
            inner = wait(&self.can_think1, inner);
            inner.asleep_think1 -= 1;
        }
        let hand = HandOn(&self.can_think1);
        let mut next = inner.state;
        next.run_think1();
        let result = f(&mut inner.data);
        std::mem::forget(hand);
        inner.state = next;
        let copy = inner.copy();
        drop(inner);
        if copy.asleep_eat1 > 0 {
            self.can_eat1.notify_one();
        }
        if copy.asleep_eat2 > 0 && copy.state.can_eat2() {
            self.can_eat2.notify_one();
        }
        if copy.asleep_eat3 > 0 && copy.state.can_eat3() {
            self.can_eat3.notify_one();
        }
        result
    }

    /// As [`think1`](Self::think1), but does not wait until `a == 1 && b == 1`.
    ///
    /// # Errors
    ///
    /// [`Refused`] where `a == 1 && b == 1` is false. Then nothing changes.
    pub fn try_think1(&self) -> Result<(), Refused> {
        let mut inner = lock(&self.inner);
        if !inner.state.can_think1() {
            return Err(Refused);
        }
        inner.state.run_think1();
        let copy = inner.copy();
        drop(inner);
        if copy.asleep_eat1 > 0 {
            self.can_eat1.notify_one();
        }
        if copy.asleep_eat2 > 0 && copy.state.can_eat2() {
            self.can_eat2.notify_one();
        }
        if copy.asleep_eat3 > 0 && copy.state.can_eat3() {
            self.can_eat3.notify_one();
        }
        Ok(())
    }

    /// As [`try_think1`](Self::try_think1), and calls `f` with the data under the same lock.
    ///
    /// Where `f` panics no field changes. `f` must not call this monitor.
    ///
    /// # Errors
    ///
    /// [`Refused`] where `a == 1 && b == 1` is false. Then nothing changes.
    pub fn try_think1_with<R>(&self, f: impl FnOnce(&mut D) -> R) -> Result<R, Refused> {
        let mut inner = lock(&self.inner);
        if !inner.state.can_think1() {
            return Err(Refused);
        }
        let hand = HandOn(&self.can_think1);
        let mut next = inner.state;
        next.run_think1();
        let result = f(&mut inner.data);
        std::mem::forget(hand);
        inner.state = next;
        let copy = inner.copy();
        drop(inner);
        if copy.asleep_eat1 > 0 {
            self.can_eat1.notify_one();
        }
        if copy.asleep_eat2 > 0 && copy.state.can_eat2() {
            self.can_eat2.notify_one();
        }
        if copy.asleep_eat3 > 0 && copy.state.can_eat3() {
            self.can_eat3.notify_one();
        }
        Ok(result)
    }

    /// As [`think1`](Self::think1), but waits for `a == 1 && b == 1` no longer than until `end`.
    ///
    /// # Errors
    ///
    /// [`Refused`] where its time is over and `a == 1 && b == 1` is false. Then nothing changes.
    pub fn think1_until(&self, end: Instant) -> Result<(), Refused> {
        let mut inner = lock(&self.inner);
        while !inner.state.can_think1() {
            let Some(left) = time_left(end) else {
                return Err(Refused);
            };
            inner.asleep_think1 += 1;
            inner = wait_for(&self.can_think1, inner, left);
            inner.asleep_think1 -= 1;
        }
        inner.state.run_think1();
        let copy = inner.copy();
        drop(inner);
        if copy.asleep_eat1 > 0 {
            self.can_eat1.notify_one();
        }
        if copy.asleep_eat2 > 0 && copy.state.can_eat2() {
            self.can_eat2.notify_one();
        }
        if copy.asleep_eat3 > 0 && copy.state.can_eat3() {
            self.can_eat3.notify_one();
        }
        Ok(())
    }

    /// As [`think1_until`](Self::think1_until), and calls `f` with the data under the same lock.
    ///
    /// Where `f` panics no field changes. `f` must not call this monitor.
    ///
    /// # Errors
    ///
    /// [`Refused`] where its time is over and `a == 1 && b == 1` is false. Then nothing changes.
    pub fn think1_until_with<R>(&self, end: Instant, f: impl FnOnce(&mut D) -> R) -> Result<R, Refused> {
        let mut inner = lock(&self.inner);
        while !inner.state.can_think1() {
            let Some(left) = time_left(end) else {
                return Err(Refused);
            };
            inner.asleep_think1 += 1;
            inner = wait_for(&self.can_think1, inner, left);
            inner.asleep_think1 -= 1;
        }
        let hand = HandOn(&self.can_think1);
        let mut next = inner.state;
        next.run_think1();
        let result = f(&mut inner.data);
        std::mem::forget(hand);
        inner.state = next;
        let copy = inner.copy();
        drop(inner);
        if copy.asleep_eat1 > 0 {
            self.can_eat1.notify_one();
        }
        if copy.asleep_eat2 > 0 && copy.state.can_eat2() {
            self.can_eat2.notify_one();
        }
        if copy.asleep_eat3 > 0 && copy.state.can_eat3() {
            self.can_eat3.notify_one();
        }
        Ok(result)
    }

    /// As [`think1`](Self::think1), but waits for `a == 1 && b == 1` no longer than `time`.
    ///
    /// # Errors
    ///
    /// [`Refused`] where its time is over and `a == 1 && b == 1` is false. Then nothing changes.
    pub fn think1_for(&self, time: Duration) -> Result<(), Refused> {
        let Some(end) = Instant::now().checked_add(time) else {
            self.think1();
            return Ok(());
        };
        self.think1_until(end)
    }

    /// As [`think1_for`](Self::think1_for), and calls `f` with the data under the same lock.
    ///
    /// Where `f` panics no field changes. `f` must not call this monitor.
    ///
    /// # Errors
    ///
    /// [`Refused`] where its time is over and `a == 1 && b == 1` is false. Then nothing changes.
    pub fn think1_for_with<R>(&self, time: Duration, f: impl FnOnce(&mut D) -> R) -> Result<R, Refused> {
        let Some(end) = Instant::now().checked_add(time) else {
            return Ok(self.think1_with(f));
        };
        self.think1_until_with(end, f)
    }

    /// Waits until `b == 2 && c == 2`.
    pub fn think2(&self) {
        let mut inner = lock(&self.inner);
        while !inner.state.can_think2() {
            inner.asleep_think2 += 1;
            inner = wait(&self.can_think2, inner);
            inner.asleep_think2 -= 1;
        }
        inner.state.run_think2();
        let copy = inner.copy();
        drop(inner);
        if copy.asleep_eat1 > 0 && copy.state.can_eat1() {
            self.can_eat1.notify_one();
        }
        if copy.asleep_eat2 > 0 {
            self.can_eat2.notify_one();
        }
        if copy.asleep_eat3 > 0 && copy.state.can_eat3() {
            self.can_eat3.notify_one();
        }
    }

    /// As [`think2`](Self::think2), and calls `f` with the data under the same lock.
    ///
    /// Where `f` panics no field changes. `f` must not call this monitor.
    pub fn think2_with<R>(&self, f: impl FnOnce(&mut D) -> R) -> R {
        let mut inner = lock(&self.inner);
        while !inner.state.can_think2() {
            inner.asleep_think2 += 1;
            inner = wait(&self.can_think2, inner);
            inner.asleep_think2 -= 1;
        }
        let hand = HandOn(&self.can_think2);
        let mut next = inner.state;
        next.run_think2();
        let result = f(&mut inner.data);
        std::mem::forget(hand);
        inner.state = next;
        let copy = inner.copy();
        drop(inner);
        if copy.asleep_eat1 > 0 && copy.state.can_eat1() {
            self.can_eat1.notify_one();
        }
        if copy.asleep_eat2 > 0 {
            self.can_eat2.notify_one();
        }
        if copy.asleep_eat3 > 0 && copy.state.can_eat3() {
            self.can_eat3.notify_one();
        }
        result
    }

    /// As [`think2`](Self::think2), but does not wait until `b == 2 && c == 2`.
    ///
    /// # Errors
    ///
    /// [`Refused`] where `b == 2 && c == 2` is false. Then nothing changes.
    pub fn try_think2(&self) -> Result<(), Refused> {
        let mut inner = lock(&self.inner);
        if !inner.state.can_think2() {
            return Err(Refused);
        }
        inner.state.run_think2();
        let copy = inner.copy();
        drop(inner);
        if copy.asleep_eat1 > 0 && copy.state.can_eat1() {
            self.can_eat1.notify_one();
        }
        if copy.asleep_eat2 > 0 {
            self.can_eat2.notify_one();
        }
        if copy.asleep_eat3 > 0 && copy.state.can_eat3() {
            self.can_eat3.notify_one();
        }
        Ok(())
    }

    /// As [`try_think2`](Self::try_think2), and calls `f` with the data under the same lock.
    ///
    /// Where `f` panics no field changes. `f` must not call this monitor.
    ///
    /// # Errors
    ///
    /// [`Refused`] where `b == 2 && c == 2` is false. Then nothing changes.
    pub fn try_think2_with<R>(&self, f: impl FnOnce(&mut D) -> R) -> Result<R, Refused> {
        let mut inner = lock(&self.inner);
        if !inner.state.can_think2() {
            return Err(Refused);
        }
        let hand = HandOn(&self.can_think2);
        let mut next = inner.state;
        next.run_think2();
        let result = f(&mut inner.data);
        std::mem::forget(hand);
        inner.state = next;
        let copy = inner.copy();
        drop(inner);
        if copy.asleep_eat1 > 0 && copy.state.can_eat1() {
            self.can_eat1.notify_one();
        }
        if copy.asleep_eat2 > 0 {
            self.can_eat2.notify_one();
        }
        if copy.asleep_eat3 > 0 && copy.state.can_eat3() {
            self.can_eat3.notify_one();
        }
        Ok(result)
    }

    /// As [`think2`](Self::think2), but waits for `b == 2 && c == 2` no longer than until `end`.
    ///
    /// # Errors
    ///
    /// [`Refused`] where its time is over and `b == 2 && c == 2` is false. Then nothing changes.
    pub fn think2_until(&self, end: Instant) -> Result<(), Refused> {
        let mut inner = lock(&self.inner);
        while !inner.state.can_think2() {
            let Some(left) = time_left(end) else {
                return Err(Refused);
            };
            inner.asleep_think2 += 1;
            inner = wait_for(&self.can_think2, inner, left);
            inner.asleep_think2 -= 1;
        }
        inner.state.run_think2();
        let copy = inner.copy();
        drop(inner);
        if copy.asleep_eat1 > 0 && copy.state.can_eat1() {
            self.can_eat1.notify_one();
        }
        if copy.asleep_eat2 > 0 {
            self.can_eat2.notify_one();
        }
        if copy.asleep_eat3 > 0 && copy.state.can_eat3() {
            self.can_eat3.notify_one();
        }
        Ok(())
    }

    /// As [`think2_until`](Self::think2_until), and calls `f` with the data under the same lock.
    ///
    /// Where `f` panics no field changes. `f` must not call this monitor.
    ///
    /// # Errors
    ///
    /// [`Refused`] where its time is over and `b == 2 && c == 2` is false. Then nothing changes.
    pub fn think2_until_with<R>(&self, end: Instant, f: impl FnOnce(&mut D) -> R) -> Result<R, Refused> {
        let mut inner = lock(&self.inner);
        while !inner.state.can_think2() {
            let Some(left) = time_left(end) else {
                return Err(Refused);
            };
            inner.asleep_think2 += 1;
            inner = wait_for(&self.can_think2, inner, left);
            inner.asleep_think2 -= 1;
        }
        let hand = HandOn(&self.can_think2);
        let mut next = inner.state;
        next.run_think2();
        let result = f(&mut inner.data);
        std::mem::forget(hand);
        inner.state = next;
        let copy = inner.copy();
        drop(inner);
        if copy.asleep_eat1 > 0 && copy.state.can_eat1() {
            self.can_eat1.notify_one();
        }
        if copy.asleep_eat2 > 0 {
            self.can_eat2.notify_one();
        }
        if copy.asleep_eat3 > 0 && copy.state.can_eat3() {
            self.can_eat3.notify_one();
        }
        Ok(result)
    }

    /// As [`think2`](Self::think2), but waits for `b == 2 && c == 2` no longer than `time`.
    ///
    /// # Errors
    ///
    /// [`Refused`] where its time is over and `b == 2 && c == 2` is false. Then nothing changes.
    pub fn think2_for(&self, time: Duration) -> Result<(), Refused> {
        let Some(end) = Instant::now().checked_add(time) else {
            self.think2();
            return Ok(());
        };
        self.think2_until(end)
    }

    /// As [`think2_for`](Self::think2_for), and calls `f` with the data under the same lock.
    ///
    /// Where `f` panics no field changes. `f` must not call this monitor.
    ///
    /// # Errors
    ///
    /// [`Refused`] where its time is over and `b == 2 && c == 2` is false. Then nothing changes.
    pub fn think2_for_with<R>(&self, time: Duration, f: impl FnOnce(&mut D) -> R) -> Result<R, Refused> {
        let Some(end) = Instant::now().checked_add(time) else {
            return Ok(self.think2_with(f));
        };
        self.think2_until_with(end, f)
    }

    /// Waits until `c == 3 && a == 3`.
    pub fn think3(&self) {
        let mut inner = lock(&self.inner);
        while !inner.state.can_think3() {
            inner.asleep_think3 += 1;
            inner = wait(&self.can_think3, inner);
            inner.asleep_think3 -= 1;
        }
        inner.state.run_think3();
        let copy = inner.copy();
        drop(inner);
        if copy.asleep_eat1 > 0 && copy.state.can_eat1() {
            self.can_eat1.notify_one();
        }
        if copy.asleep_eat2 > 0 && copy.state.can_eat2() {
            self.can_eat2.notify_one();
        }
        if copy.asleep_eat3 > 0 {
            self.can_eat3.notify_one();
        }
    }

    /// As [`think3`](Self::think3), and calls `f` with the data under the same lock.
    ///
    /// Where `f` panics no field changes. `f` must not call this monitor.
    pub fn think3_with<R>(&self, f: impl FnOnce(&mut D) -> R) -> R {
        let mut inner = lock(&self.inner);
        while !inner.state.can_think3() {
            inner.asleep_think3 += 1;
            inner = wait(&self.can_think3, inner);
            inner.asleep_think3 -= 1;
        }
        let hand = HandOn(&self.can_think3);
        let mut next = inner.state;
        next.run_think3();
        let result = f(&mut inner.data);
        std::mem::forget(hand);
        inner.state = next;
        let copy = inner.copy();
        drop(inner);
        if copy.asleep_eat1 > 0 && copy.state.can_eat1() {
            self.can_eat1.notify_one();
        }
        if copy.asleep_eat2 > 0 && copy.state.can_eat2() {
            self.can_eat2.notify_one();
        }
        if copy.asleep_eat3 > 0 {
            self.can_eat3.notify_one();
        }
        result
    }

    /// As [`think3`](Self::think3), but does not wait until `c == 3 && a == 3`.
    ///
    /// # Errors
    ///
    /// [`Refused`] where `c == 3 && a == 3` is false. Then nothing changes.
    pub fn try_think3(&self) -> Result<(), Refused> {
        let mut inner = lock(&self.inner);
        if !inner.state.can_think3() {
            return Err(Refused);
        }
        inner.state.run_think3();
        let copy = inner.copy();
        drop(inner);
        if copy.asleep_eat1 > 0 && copy.state.can_eat1() {
            self.can_eat1.notify_one();
        }
        if copy.asleep_eat2 > 0 && copy.state.can_eat2() {
            self.can_eat2.notify_one();
        }
        if copy.asleep_eat3 > 0 {
            self.can_eat3.notify_one();
        }
        Ok(())
    }

    /// As [`try_think3`](Self::try_think3), and calls `f` with the data under the same lock.
    ///
    /// Where `f` panics no field changes. `f` must not call this monitor.
    ///
    /// # Errors
    ///
    /// [`Refused`] where `c == 3 && a == 3` is false. Then nothing changes.
    pub fn try_think3_with<R>(&self, f: impl FnOnce(&mut D) -> R) -> Result<R, Refused> {
        let mut inner = lock(&self.inner);
        if !inner.state.can_think3() {
            return Err(Refused);
        }
        let hand = HandOn(&self.can_think3);
        let mut next = inner.state;
        next.run_think3();
        let result = f(&mut inner.data);
        std::mem::forget(hand);
        inner.state = next;
        let copy = inner.copy();
        drop(inner);
        if copy.asleep_eat1 > 0 && copy.state.can_eat1() {
            self.can_eat1.notify_one();
        }
        if copy.asleep_eat2 > 0 && copy.state.can_eat2() {
            self.can_eat2.notify_one();
        }
        if copy.asleep_eat3 > 0 {
            self.can_eat3.notify_one();
        }
        Ok(result)
    }

    /// As [`think3`](Self::think3), but waits for `c == 3 && a == 3` no longer than until `end`.
    ///
    /// # Errors
    ///
    /// [`Refused`] where its time is over and `c == 3 && a == 3` is false. Then nothing changes.
    pub fn think3_until(&self, end: Instant) -> Result<(), Refused> {
        let mut inner = lock(&self.inner);
        while !inner.state.can_think3() {
            let Some(left) = time_left(end) else {
                return Err(Refused);
            };
            inner.asleep_think3 += 1;
            inner = wait_for(&self.can_think3, inner, left);
            inner.asleep_think3 -= 1;
        }
        inner.state.run_think3();
        let copy = inner.copy();
        drop(inner);
        if copy.asleep_eat1 > 0 && copy.state.can_eat1() {
            self.can_eat1.notify_one();
        }
        if copy.asleep_eat2 > 0 && copy.state.can_eat2() {
            self.can_eat2.notify_one();
        }
        if copy.asleep_eat3 > 0 {
            self.can_eat3.notify_one();
        }
        Ok(())
    }

    /// As [`think3_until`](Self::think3_until), and calls `f` with the data under the same lock.
    ///
    /// Where `f` panics no field changes. `f` must not call this monitor.
    ///
    /// # Errors
    ///
    /// [`Refused`] where its time is over and `c == 3 && a == 3` is false. Then nothing changes.
    pub fn think3_until_with<R>(&self, end: Instant, f: impl FnOnce(&mut D) -> R) -> Result<R, Refused> {
        let mut inner = lock(&self.inner);
        while !inner.state.can_think3() {
            let Some(left) = time_left(end) else {
                return Err(Refused);
            };
            inner.asleep_think3 += 1;
            inner = wait_for(&self.can_think3, inner, left);
            inner.asleep_think3 -= 1;
        }
        let hand = HandOn(&self.can_think3);
        let mut next = inner.state;
        next.run_think3();
        let result = f(&mut inner.data);
        std::mem::forget(hand);
        inner.state = next;
        let copy = inner.copy();
        drop(inner);
        if copy.asleep_eat1 > 0 && copy.state.can_eat1() {
            self.can_eat1.notify_one();
        }
        if copy.asleep_eat2 > 0 && copy.state.can_eat2() {
            self.can_eat2.notify_one();
        }
        if copy.asleep_eat3 > 0 {
            self.can_eat3.notify_one();
        }
        Ok(result)
    }

    /// As [`think3`](Self::think3), but waits for `c == 3 && a == 3` no longer than `time`.
    ///
    /// # Errors
    ///
    /// [`Refused`] where its time is over and `c == 3 && a == 3` is false. Then nothing changes.
    pub fn think3_for(&self, time: Duration) -> Result<(), Refused> {
        let Some(end) = Instant::now().checked_add(time) else {
            self.think3();
            return Ok(());
        };
        self.think3_until(end)
    }

    /// As [`think3_for`](Self::think3_for), and calls `f` with the data under the same lock.
    ///
    /// Where `f` panics no field changes. `f` must not call this monitor.
    ///
    /// # Errors
    ///
    /// [`Refused`] where its time is over and `c == 3 && a == 3` is false. Then nothing changes.
    pub fn think3_for_with<R>(&self, time: Duration, f: impl FnOnce(&mut D) -> R) -> Result<R, Refused> {
        let Some(end) = Instant::now().checked_add(time) else {
            return Ok(self.think3_with(f));
        };
        self.think3_until_with(end, f)
    }
}

impl Default for Table {
    fn default() -> Self {
        Self::new()
    }
}

impl<D> std::fmt::Debug for Table<D> {
    fn fmt(&self, f: &mut std::fmt::Formatter<'_>) -> std::fmt::Result {
        let state = match self.inner.try_lock() {
            Ok(inner) => Some(inner.state),
            Err(std::sync::TryLockError::Poisoned(inner)) => Some(inner.into_inner().state),
            Err(std::sync::TryLockError::WouldBlock) => None,
        };
        let mut text = f.debug_struct("Table");
        match state {
            Some(state) => text.field("state", &state),
            None => text.field("state", &format_args!("<locked>")),
        };
        text.finish_non_exhaustive()
    }
}

/// What the mutex guards: the fields, how many calls sleep on each condition, and the data.
#[allow(dead_code)]
struct Inner<D = ()> {
    state: State,
    asleep_eat1: usize,
    asleep_eat2: usize,
    asleep_eat3: usize,
    asleep_think1: usize,
    asleep_think2: usize,
    asleep_think3: usize,
    data: D,
}

impl<D> Inner<D> {
    /// All but the data.
    #[allow(dead_code)]
    fn copy(&self) -> Inner {
        Inner {
            state: self.state,
            asleep_eat1: self.asleep_eat1,
            asleep_eat2: self.asleep_eat2,
            asleep_eat3: self.asleep_eat3,
            asleep_think1: self.asleep_think1,
            asleep_think2: self.asleep_think2,
            asleep_think3: self.asleep_think3,
            data: (),
        }
    }
}

/// The fields of the monitor.
#[derive(Clone, Copy, Debug)]
#[allow(dead_code)]
struct State {
    a: i64,
    b: i64,
    c: i64,
}

// The guards and bodies, with expressions as the monitor has them.
#[rustfmt::skip]
#[allow(unused, unused_comparisons, clippy::all, clippy::pedantic)]
impl State {
    const START: Self = Self {
        a: 0,
        b: 0,
        c: 0,
    };

    fn can_eat1(&self) -> bool {
        self.a == 0 && self.b == 0
    }

    fn run_eat1(&mut self) {
        self.a = 1;
        self.b = 1;
    }

    fn can_eat2(&self) -> bool {
        self.b == 0 && self.c == 0
    }

    fn run_eat2(&mut self) {
        self.b = 2;
        self.c = 2;
    }

    fn can_eat3(&self) -> bool {
        self.c == 0 && self.a == 0
    }

    fn run_eat3(&mut self) {
        self.c = 3;
        self.a = 3;
    }

    fn can_think1(&self) -> bool {
        self.a == 1 && self.b == 1
    }

    fn run_think1(&mut self) {
        self.a = 0;
        self.b = 0;
    }

    fn can_think2(&self) -> bool {
        self.b == 2 && self.c == 2
    }

    fn run_think2(&mut self) {
        self.b = 0;
        self.c = 0;
    }

    fn can_think3(&self) -> bool {
        self.c == 3 && self.a == 3
    }

    fn run_think3(&mut self) {
        self.c = 0;
        self.a = 0;
    }
}

/// Locks the monitor, poisoned or not: where a function panicked its block changed no field.
fn lock<D>(inner: &Mutex<Inner<D>>) -> MutexGuard<'_, Inner<D>> {
    inner.lock().unwrap_or_else(PoisonError::into_inner)
}

/// Gives the lock back and waits on the condition, in one step, and takes the lock again.
fn wait<'a, D>(condition: &Condvar, inner: MutexGuard<'a, Inner<D>>) -> MutexGuard<'a, Inner<D>> {
    condition
        .wait(inner)
        .unwrap_or_else(PoisonError::into_inner)
}

/// Wakes one call that waits on the condition, where a block ends that changed nothing.
#[allow(dead_code)]
struct HandOn<'a>(&'a Condvar);

impl Drop for HandOn<'_> {
    fn drop(&mut self) {
        self.0.notify_one();
    }
}

/// As `wait`, but no longer than this.
fn wait_for<'a, D>(
    condition: &Condvar,
    inner: MutexGuard<'a, Inner<D>>,
    left: Duration,
) -> MutexGuard<'a, Inner<D>> {
    condition
        .wait_timeout(inner, left)
        .unwrap_or_else(PoisonError::into_inner)
        .0
}

/// How long it is until then, or `None` where it has come.
fn time_left(end: Instant) -> Option<Duration> {
    end.checked_duration_since(Instant::now())
        .filter(|left| !left.is_zero())
}

/// The guard was false, and the call did not wait, or not any longer. Nothing changed.
#[derive(Clone, Copy, Debug, PartialEq, Eq)]
pub struct Refused;

impl std::fmt::Display for Refused {
    fn fmt(&self, f: &mut std::fmt::Formatter<'_>) -> std::fmt::Result {
        f.write_str("the guard is false")
    }
}

impl std::error::Error for Refused {}
