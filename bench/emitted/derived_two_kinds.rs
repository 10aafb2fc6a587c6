// The monitor `TwoKinds` as a module of Rust, made by `expresso emit` 0.2.0.
// Change the monitor, and not this file. It wants Rust 1.65 and the edition 2021, or later ones.

use std::sync::{Condvar, Mutex, MutexGuard, PoisonError};
use std::time::{Duration, Instant};

/// The monitor `TwoKinds`. Threads share it by reference. A call waits for its guard, unless it tries.
///
/// Its lock guards data `D` too, for the functions that calls are given.
/**
# Plan

```text
plan TwoKinds
keep total >= 0
keep total <= 2
keep total <= 3
keep red >= 0
keep red <= 2
keep red <= total
condition 1 signal: total < ROOM
condition 2 signal: red > 0
condition 3 signal: red < total
condition 4 signal: total == ROOM
block putRed: 2 signal, 4 signal tested
block putBlue: 3 signal, 4 signal tested
block put: 2 signal tested, 3 signal tested, 4 signal tested
block getRed: 1 signal
block getBlue: 1 signal
block drain: 1 broadcast
```
*/
#[allow(dead_code, non_camel_case_types)]
#[allow(clippy::doc_markdown, clippy::upper_case_acronyms)]
pub struct TwoKinds<D = ()> {
    inner: Mutex<Inner<D>>,
    /// For calls that wait until `total < ROOM`.
    can_put_red: Condvar,
    /// For calls that wait until `red > 0`.
    can_get_red: Condvar,
    /// For calls that wait until `red < total`.
    can_get_blue: Condvar,
    /// For calls that wait until `total == ROOM`.
    can_drain: Condvar,
}

#[rustfmt::skip]
#[allow(dead_code, clippy::doc_markdown, clippy::style)]
impl TwoKinds {
    /// The constant `ROOM`.
    pub const ROOM: i64 = 2;

    /// The monitor at its start.
    #[must_use]
    pub const fn new() -> Self {
        Self::with_data(())
    }
}

#[rustfmt::skip]
#[allow(dead_code, non_snake_case)]
#[allow(clippy::doc_markdown, clippy::style, clippy::too_many_arguments)]
impl<D> TwoKinds<D> {
    /// The monitor at its start, with these data.
    #[must_use]
    pub const fn with_data(data: D) -> Self {
        Self {
            inner: Mutex::new(Inner {
                state: State::START,
                asleep_put_red: 0,
                asleep_get_red: 0,
                asleep_get_blue: 0,
                asleep_drain: 0,
                data,
            }),
            can_put_red: Condvar::new(),
            can_get_red: Condvar::new(),
            can_get_blue: Condvar::new(),
            can_drain: Condvar::new(),
        }
    }

    /// The data, which nobody shares now.
    #[must_use]
    pub fn get_mut(&mut self) -> &mut D {
        &mut self.inner.get_mut().unwrap_or_else(PoisonError::into_inner).data
    }

    /// The data, without the monitor.
    #[must_use]
    pub fn into_inner(self) -> D {
        self.inner.into_inner().unwrap_or_else(PoisonError::into_inner).data
    }

    /// Whether the mutex is poisoned, as where a function panicked that a call was given.
    #[must_use]
    pub fn is_poisoned(&self) -> bool {
        self.inner.is_poisoned()
    }

    /// Waits until `total < ROOM`.
    pub fn put_red(&self) {
        let mut inner = lock(&self.inner);
        while !inner.state.can_put_red() {
            inner.asleep_put_red += 1;
            inner = wait(&self.can_put_red, inner);
            inner.asleep_put_red -= 1;
        }
        inner.state.run_put_red();
        let copy = inner.copy();
        drop(inner);
        if copy.asleep_get_red > 0 {
            self.can_get_red.notify_one();
        }
        if copy.asleep_drain > 0 && copy.state.can_drain() {
            self.can_drain.notify_one();
        }
    }

    /// As [`put_red`](Self::put_red), and calls `f` with the data under the same lock.
    ///
    /// Where `f` panics no field changes. `f` must not call this monitor.
    pub fn put_red_with<R>(&self, f: impl FnOnce(&mut D) -> R) -> R {
        let mut inner = lock(&self.inner);
        while !inner.state.can_put_red() {
            inner.asleep_put_red += 1;
            inner = wait(&self.can_put_red, inner);
            inner.asleep_put_red -= 1;
        }
        let hand = HandOn(&self.can_put_red);
        let mut next = inner.state;
        next.run_put_red();
        let result = f(&mut inner.data);
        std::mem::forget(hand);
        inner.state = next;
        let copy = inner.copy();
        drop(inner);
        if copy.asleep_get_red > 0 {
            self.can_get_red.notify_one();
        }
        if copy.asleep_drain > 0 && copy.state.can_drain() {
            self.can_drain.notify_one();
        }
        result
    }

    /// As [`put_red`](Self::put_red), but does not wait until `total < ROOM`.
    ///
    /// # Errors
    ///
    /// [`Refused`] where `total < ROOM` is false. Then nothing changes.
    pub fn try_put_red(&self) -> Result<(), Refused> {
        let mut inner = lock(&self.inner);
        if !inner.state.can_put_red() {
            return Err(Refused);
        }
        inner.state.run_put_red();
        let copy = inner.copy();
        drop(inner);
        if copy.asleep_get_red > 0 {
            self.can_get_red.notify_one();
        }
        if copy.asleep_drain > 0 && copy.state.can_drain() {
            self.can_drain.notify_one();
        }
        Ok(())
    }

    /// As [`try_put_red`](Self::try_put_red), and calls `f` with the data under the same lock.
    ///
    /// Where `f` panics no field changes. `f` must not call this monitor.
    ///
    /// # Errors
    ///
    /// [`Refused`] where `total < ROOM` is false. Then nothing changes.
    pub fn try_put_red_with<R>(&self, f: impl FnOnce(&mut D) -> R) -> Result<R, Refused> {
        let mut inner = lock(&self.inner);
        if !inner.state.can_put_red() {
            return Err(Refused);
        }
        let hand = HandOn(&self.can_put_red);
        let mut next = inner.state;
        next.run_put_red();
        let result = f(&mut inner.data);
        std::mem::forget(hand);
        inner.state = next;
        let copy = inner.copy();
        drop(inner);
        if copy.asleep_get_red > 0 {
            self.can_get_red.notify_one();
        }
        if copy.asleep_drain > 0 && copy.state.can_drain() {
            self.can_drain.notify_one();
        }
        Ok(result)
    }

    /// As [`put_red`](Self::put_red), but waits for `total < ROOM` no longer than until `end`.
    ///
    /// # Errors
    ///
    /// [`Refused`] where its time is over and `total < ROOM` is false. Then nothing changes.
    pub fn put_red_until(&self, end: Instant) -> Result<(), Refused> {
        let mut inner = lock(&self.inner);
        while !inner.state.can_put_red() {
            let Some(left) = time_left(end) else {
                return Err(Refused);
            };
            inner.asleep_put_red += 1;
            inner = wait_for(&self.can_put_red, inner, left);
            inner.asleep_put_red -= 1;
        }
        inner.state.run_put_red();
        let copy = inner.copy();
        drop(inner);
        if copy.asleep_get_red > 0 {
            self.can_get_red.notify_one();
        }
        if copy.asleep_drain > 0 && copy.state.can_drain() {
            self.can_drain.notify_one();
        }
        Ok(())
    }

    /// As [`put_red_until`](Self::put_red_until), and calls `f` with the data under the same lock.
    ///
    /// Where `f` panics no field changes. `f` must not call this monitor.
    ///
    /// # Errors
    ///
    /// [`Refused`] where its time is over and `total < ROOM` is false. Then nothing changes.
    pub fn put_red_until_with<R>(&self, end: Instant, f: impl FnOnce(&mut D) -> R) -> Result<R, Refused> {
        let mut inner = lock(&self.inner);
        while !inner.state.can_put_red() {
            let Some(left) = time_left(end) else {
                return Err(Refused);
            };
            inner.asleep_put_red += 1;
            inner = wait_for(&self.can_put_red, inner, left);
            inner.asleep_put_red -= 1;
        }
        let hand = HandOn(&self.can_put_red);
        let mut next = inner.state;
        next.run_put_red();
        let result = f(&mut inner.data);
        std::mem::forget(hand);
        inner.state = next;
        let copy = inner.copy();
        drop(inner);
        if copy.asleep_get_red > 0 {
            self.can_get_red.notify_one();
        }
        if copy.asleep_drain > 0 && copy.state.can_drain() {
            self.can_drain.notify_one();
        }
        Ok(result)
    }

    /// As [`put_red`](Self::put_red), but waits for `total < ROOM` no longer than `time`.
    ///
    /// # Errors
    ///
    /// [`Refused`] where its time is over and `total < ROOM` is false. Then nothing changes.
    pub fn put_red_for(&self, time: Duration) -> Result<(), Refused> {
        let Some(end) = Instant::now().checked_add(time) else {
            self.put_red();
            return Ok(());
        };
        self.put_red_until(end)
    }

    /// As [`put_red_for`](Self::put_red_for), and calls `f` with the data under the same lock.
    ///
    /// Where `f` panics no field changes. `f` must not call this monitor.
    ///
    /// # Errors
    ///
    /// [`Refused`] where its time is over and `total < ROOM` is false. Then nothing changes.
    pub fn put_red_for_with<R>(&self, time: Duration, f: impl FnOnce(&mut D) -> R) -> Result<R, Refused> {
        let Some(end) = Instant::now().checked_add(time) else {
            return Ok(self.put_red_with(f));
        };
        self.put_red_until_with(end, f)
    }

    /// Waits until `total < ROOM`.
    pub fn put_blue(&self) {
        let mut inner = lock(&self.inner);
        while !inner.state.can_put_red() {
            inner.asleep_put_red += 1;
            inner = wait(&self.can_put_red, inner);
            inner.asleep_put_red -= 1;
        }
        inner.state.run_put_blue();
        let copy = inner.copy();
        drop(inner);
        if copy.asleep_get_blue > 0 {
            self.can_get_blue.notify_one();
        }
        if copy.asleep_drain > 0 && copy.state.can_drain() {
            self.can_drain.notify_one();
        }
    }

    /// As [`put_blue`](Self::put_blue), and calls `f` with the data under the same lock.
    ///
    /// Where `f` panics no field changes. `f` must not call this monitor.
    pub fn put_blue_with<R>(&self, f: impl FnOnce(&mut D) -> R) -> R {
        let mut inner = lock(&self.inner);
        while !inner.state.can_put_red() {
            inner.asleep_put_red += 1;
            inner = wait(&self.can_put_red, inner);
            inner.asleep_put_red -= 1;
        }
        let hand = HandOn(&self.can_put_red);
        let mut next = inner.state;
        next.run_put_blue();
        let result = f(&mut inner.data);
        std::mem::forget(hand);
        inner.state = next;
        let copy = inner.copy();
        drop(inner);
        if copy.asleep_get_blue > 0 {
            self.can_get_blue.notify_one();
        }
        if copy.asleep_drain > 0 && copy.state.can_drain() {
            self.can_drain.notify_one();
        }
        result
    }

    /// As [`put_blue`](Self::put_blue), but does not wait until `total < ROOM`.
    ///
    /// # Errors
    ///
    /// [`Refused`] where `total < ROOM` is false. Then nothing changes.
    pub fn try_put_blue(&self) -> Result<(), Refused> {
        let mut inner = lock(&self.inner);
        if !inner.state.can_put_red() {
            return Err(Refused);
        }
        inner.state.run_put_blue();
        let copy = inner.copy();
        drop(inner);
        if copy.asleep_get_blue > 0 {
            self.can_get_blue.notify_one();
        }
        if copy.asleep_drain > 0 && copy.state.can_drain() {
            self.can_drain.notify_one();
        }
        Ok(())
    }

    /// As [`try_put_blue`](Self::try_put_blue), and calls `f` with the data under the same lock.
    ///
    /// Where `f` panics no field changes. `f` must not call this monitor.
    ///
    /// # Errors
    ///
    /// [`Refused`] where `total < ROOM` is false. Then nothing changes.
    pub fn try_put_blue_with<R>(&self, f: impl FnOnce(&mut D) -> R) -> Result<R, Refused> {
        let mut inner = lock(&self.inner);
        if !inner.state.can_put_red() {
            return Err(Refused);
        }
        let hand = HandOn(&self.can_put_red);
        let mut next = inner.state;
        next.run_put_blue();
        let result = f(&mut inner.data);
        std::mem::forget(hand);
        inner.state = next;
        let copy = inner.copy();
        drop(inner);
        if copy.asleep_get_blue > 0 {
            self.can_get_blue.notify_one();
        }
        if copy.asleep_drain > 0 && copy.state.can_drain() {
            self.can_drain.notify_one();
        }
        Ok(result)
    }

    /// As [`put_blue`](Self::put_blue), but waits for `total < ROOM` no longer than until `end`.
    ///
    /// # Errors
    ///
    /// [`Refused`] where its time is over and `total < ROOM` is false. Then nothing changes.
    pub fn put_blue_until(&self, end: Instant) -> Result<(), Refused> {
        let mut inner = lock(&self.inner);
        while !inner.state.can_put_red() {
            let Some(left) = time_left(end) else {
                return Err(Refused);
            };
            inner.asleep_put_red += 1;
            inner = wait_for(&self.can_put_red, inner, left);
            inner.asleep_put_red -= 1;
        }
        inner.state.run_put_blue();
        let copy = inner.copy();
        drop(inner);
        if copy.asleep_get_blue > 0 {
            self.can_get_blue.notify_one();
        }
        if copy.asleep_drain > 0 && copy.state.can_drain() {
            self.can_drain.notify_one();
        }
        Ok(())
    }

    /// As [`put_blue_until`](Self::put_blue_until), and calls `f` with the data under the same lock.
    ///
    /// Where `f` panics no field changes. `f` must not call this monitor.
    ///
    /// # Errors
    ///
    /// [`Refused`] where its time is over and `total < ROOM` is false. Then nothing changes.
    pub fn put_blue_until_with<R>(&self, end: Instant, f: impl FnOnce(&mut D) -> R) -> Result<R, Refused> {
        let mut inner = lock(&self.inner);
        while !inner.state.can_put_red() {
            let Some(left) = time_left(end) else {
                return Err(Refused);
            };
            inner.asleep_put_red += 1;
            inner = wait_for(&self.can_put_red, inner, left);
            inner.asleep_put_red -= 1;
        }
        let hand = HandOn(&self.can_put_red);
        let mut next = inner.state;
        next.run_put_blue();
        let result = f(&mut inner.data);
        std::mem::forget(hand);
        inner.state = next;
        let copy = inner.copy();
        drop(inner);
        if copy.asleep_get_blue > 0 {
            self.can_get_blue.notify_one();
        }
        if copy.asleep_drain > 0 && copy.state.can_drain() {
            self.can_drain.notify_one();
        }
        Ok(result)
    }

    /// As [`put_blue`](Self::put_blue), but waits for `total < ROOM` no longer than `time`.
    ///
    /// # Errors
    ///
    /// [`Refused`] where its time is over and `total < ROOM` is false. Then nothing changes.
    pub fn put_blue_for(&self, time: Duration) -> Result<(), Refused> {
        let Some(end) = Instant::now().checked_add(time) else {
            self.put_blue();
            return Ok(());
        };
        self.put_blue_until(end)
    }

    /// As [`put_blue_for`](Self::put_blue_for), and calls `f` with the data under the same lock.
    ///
    /// Where `f` panics no field changes. `f` must not call this monitor.
    ///
    /// # Errors
    ///
    /// [`Refused`] where its time is over and `total < ROOM` is false. Then nothing changes.
    pub fn put_blue_for_with<R>(&self, time: Duration, f: impl FnOnce(&mut D) -> R) -> Result<R, Refused> {
        let Some(end) = Instant::now().checked_add(time) else {
            return Ok(self.put_blue_with(f));
        };
        self.put_blue_until_with(end, f)
    }

    /// Waits until `total < ROOM`.
    pub fn put(&self, is_red: bool) {
        let mut inner = lock(&self.inner);
        while !inner.state.can_put_red() {
            inner.asleep_put_red += 1;
            inner = wait(&self.can_put_red, inner);
            inner.asleep_put_red -= 1;
        }
        inner.state.run_put(is_red);
        let copy = inner.copy();
        drop(inner);
        if copy.asleep_get_red > 0 && copy.state.can_get_red() {
            self.can_get_red.notify_one();
        }
        if copy.asleep_get_blue > 0 && copy.state.can_get_blue() {
            self.can_get_blue.notify_one();
        }
        if copy.asleep_drain > 0 && copy.state.can_drain() {
            self.can_drain.notify_one();
        }
    }

    /// As [`put`](Self::put), and calls `f` with the data under the same lock.
    ///
    /// Where `f` panics no field changes. `f` must not call this monitor.
    pub fn put_with<R>(&self, is_red: bool, f: impl FnOnce(&mut D) -> R) -> R {
        let mut inner = lock(&self.inner);
        while !inner.state.can_put_red() {
            inner.asleep_put_red += 1;
            inner = wait(&self.can_put_red, inner);
            inner.asleep_put_red -= 1;
        }
        let hand = HandOn(&self.can_put_red);
        let mut next = inner.state;
        next.run_put(is_red);
        let result = f(&mut inner.data);
        std::mem::forget(hand);
        inner.state = next;
        let copy = inner.copy();
        drop(inner);
        if copy.asleep_get_red > 0 && copy.state.can_get_red() {
            self.can_get_red.notify_one();
        }
        if copy.asleep_get_blue > 0 && copy.state.can_get_blue() {
            self.can_get_blue.notify_one();
        }
        if copy.asleep_drain > 0 && copy.state.can_drain() {
            self.can_drain.notify_one();
        }
        result
    }

    /// As [`put`](Self::put), but does not wait until `total < ROOM`.
    ///
    /// # Errors
    ///
    /// [`Refused`] where `total < ROOM` is false. Then nothing changes.
    pub fn try_put(&self, is_red: bool) -> Result<(), Refused> {
        let mut inner = lock(&self.inner);
        if !inner.state.can_put_red() {
            return Err(Refused);
        }
        inner.state.run_put(is_red);
        let copy = inner.copy();
        drop(inner);
        if copy.asleep_get_red > 0 && copy.state.can_get_red() {
            self.can_get_red.notify_one();
        }
        if copy.asleep_get_blue > 0 && copy.state.can_get_blue() {
            self.can_get_blue.notify_one();
        }
        if copy.asleep_drain > 0 && copy.state.can_drain() {
            self.can_drain.notify_one();
        }
        Ok(())
    }

    /// As [`try_put`](Self::try_put), and calls `f` with the data under the same lock.
    ///
    /// Where `f` panics no field changes. `f` must not call this monitor.
    ///
    /// # Errors
    ///
    /// [`Refused`] where `total < ROOM` is false. Then nothing changes.
    pub fn try_put_with<R>(&self, is_red: bool, f: impl FnOnce(&mut D) -> R) -> Result<R, Refused> {
        let mut inner = lock(&self.inner);
        if !inner.state.can_put_red() {
            return Err(Refused);
        }
        let hand = HandOn(&self.can_put_red);
        let mut next = inner.state;
        next.run_put(is_red);
        let result = f(&mut inner.data);
        std::mem::forget(hand);
        inner.state = next;
        let copy = inner.copy();
        drop(inner);
        if copy.asleep_get_red > 0 && copy.state.can_get_red() {
            self.can_get_red.notify_one();
        }
        if copy.asleep_get_blue > 0 && copy.state.can_get_blue() {
            self.can_get_blue.notify_one();
        }
        if copy.asleep_drain > 0 && copy.state.can_drain() {
            self.can_drain.notify_one();
        }
        Ok(result)
    }

    /// As [`put`](Self::put), but waits for `total < ROOM` no longer than until `end`.
    ///
    /// # Errors
    ///
    /// [`Refused`] where its time is over and `total < ROOM` is false. Then nothing changes.
    pub fn put_until(&self, is_red: bool, end: Instant) -> Result<(), Refused> {
        let mut inner = lock(&self.inner);
        while !inner.state.can_put_red() {
            let Some(left) = time_left(end) else {
                return Err(Refused);
            };
            inner.asleep_put_red += 1;
            inner = wait_for(&self.can_put_red, inner, left);
            inner.asleep_put_red -= 1;
        }
        inner.state.run_put(is_red);
        let copy = inner.copy();
        drop(inner);
        if copy.asleep_get_red > 0 && copy.state.can_get_red() {
            self.can_get_red.notify_one();
        }
        if copy.asleep_get_blue > 0 && copy.state.can_get_blue() {
            self.can_get_blue.notify_one();
        }
        if copy.asleep_drain > 0 && copy.state.can_drain() {
            self.can_drain.notify_one();
        }
        Ok(())
    }

    /// As [`put_until`](Self::put_until), and calls `f` with the data under the same lock.
    ///
    /// Where `f` panics no field changes. `f` must not call this monitor.
    ///
    /// # Errors
    ///
    /// [`Refused`] where its time is over and `total < ROOM` is false. Then nothing changes.
    pub fn put_until_with<R>(&self, is_red: bool, end: Instant, f: impl FnOnce(&mut D) -> R) -> Result<R, Refused> {
        let mut inner = lock(&self.inner);
        while !inner.state.can_put_red() {
            let Some(left) = time_left(end) else {
                return Err(Refused);
            };
            inner.asleep_put_red += 1;
            inner = wait_for(&self.can_put_red, inner, left);
            inner.asleep_put_red -= 1;
        }
        let hand = HandOn(&self.can_put_red);
        let mut next = inner.state;
        next.run_put(is_red);
        let result = f(&mut inner.data);
        std::mem::forget(hand);
        inner.state = next;
        let copy = inner.copy();
        drop(inner);
        if copy.asleep_get_red > 0 && copy.state.can_get_red() {
            self.can_get_red.notify_one();
        }
        if copy.asleep_get_blue > 0 && copy.state.can_get_blue() {
            self.can_get_blue.notify_one();
        }
        if copy.asleep_drain > 0 && copy.state.can_drain() {
            self.can_drain.notify_one();
        }
        Ok(result)
    }

    /// As [`put`](Self::put), but waits for `total < ROOM` no longer than `time`.
    ///
    /// # Errors
    ///
    /// [`Refused`] where its time is over and `total < ROOM` is false. Then nothing changes.
    pub fn put_for(&self, is_red: bool, time: Duration) -> Result<(), Refused> {
        let Some(end) = Instant::now().checked_add(time) else {
            self.put(is_red);
            return Ok(());
        };
        self.put_until(is_red, end)
    }

    /// As [`put_for`](Self::put_for), and calls `f` with the data under the same lock.
    ///
    /// Where `f` panics no field changes. `f` must not call this monitor.
    ///
    /// # Errors
    ///
    /// [`Refused`] where its time is over and `total < ROOM` is false. Then nothing changes.
    pub fn put_for_with<R>(&self, is_red: bool, time: Duration, f: impl FnOnce(&mut D) -> R) -> Result<R, Refused> {
        let Some(end) = Instant::now().checked_add(time) else {
            return Ok(self.put_with(is_red, f));
        };
        self.put_until_with(is_red, end, f)
    }

    /// Waits until `red > 0`.
    pub fn get_red(&self) {
        let mut inner = lock(&self.inner);
        while !inner.state.can_get_red() {
            inner.asleep_get_red += 1;
            inner = wait(&self.can_get_red, inner);
            inner.asleep_get_red -= 1;
        }
        inner.state.run_get_red();
        let copy = inner.copy();
        drop(inner);
        if copy.asleep_put_red > 0 {
            self.can_put_red.notify_one();
        }
    }

    /// As [`get_red`](Self::get_red), and calls `f` with the data under the same lock.
    ///
    /// Where `f` panics no field changes. `f` must not call this monitor.
    pub fn get_red_with<R>(&self, f: impl FnOnce(&mut D) -> R) -> R {
        let mut inner = lock(&self.inner);
        while !inner.state.can_get_red() {
            inner.asleep_get_red += 1;
            inner = wait(&self.can_get_red, inner);
            inner.asleep_get_red -= 1;
        }
        let hand = HandOn(&self.can_get_red);
        let mut next = inner.state;
        next.run_get_red();
        let result = f(&mut inner.data);
        std::mem::forget(hand);
        inner.state = next;
        let copy = inner.copy();
        drop(inner);
        if copy.asleep_put_red > 0 {
            self.can_put_red.notify_one();
        }
        result
    }

    /// As [`get_red`](Self::get_red), but does not wait until `red > 0`.
    ///
    /// # Errors
    ///
    /// [`Refused`] where `red > 0` is false. Then nothing changes.
    pub fn try_get_red(&self) -> Result<(), Refused> {
        let mut inner = lock(&self.inner);
        if !inner.state.can_get_red() {
            return Err(Refused);
        }
        inner.state.run_get_red();
        let copy = inner.copy();
        drop(inner);
        if copy.asleep_put_red > 0 {
            self.can_put_red.notify_one();
        }
        Ok(())
    }

    /// As [`try_get_red`](Self::try_get_red), and calls `f` with the data under the same lock.
    ///
    /// Where `f` panics no field changes. `f` must not call this monitor.
    ///
    /// # Errors
    ///
    /// [`Refused`] where `red > 0` is false. Then nothing changes.
    pub fn try_get_red_with<R>(&self, f: impl FnOnce(&mut D) -> R) -> Result<R, Refused> {
        let mut inner = lock(&self.inner);
        if !inner.state.can_get_red() {
            return Err(Refused);
        }
        let hand = HandOn(&self.can_get_red);
        let mut next = inner.state;
        next.run_get_red();
        let result = f(&mut inner.data);
        std::mem::forget(hand);
        inner.state = next;
        let copy = inner.copy();
        drop(inner);
        if copy.asleep_put_red > 0 {
            self.can_put_red.notify_one();
        }
        Ok(result)
    }

    /// As [`get_red`](Self::get_red), but waits for `red > 0` no longer than until `end`.
    ///
    /// # Errors
    ///
    /// [`Refused`] where its time is over and `red > 0` is false. Then nothing changes.
    pub fn get_red_until(&self, end: Instant) -> Result<(), Refused> {
        let mut inner = lock(&self.inner);
        while !inner.state.can_get_red() {
            let Some(left) = time_left(end) else {
                return Err(Refused);
            };
            inner.asleep_get_red += 1;
            inner = wait_for(&self.can_get_red, inner, left);
            inner.asleep_get_red -= 1;
        }
        inner.state.run_get_red();
        let copy = inner.copy();
        drop(inner);
        if copy.asleep_put_red > 0 {
            self.can_put_red.notify_one();
        }
        Ok(())
    }

    /// As [`get_red_until`](Self::get_red_until), and calls `f` with the data under the same lock.
    ///
    /// Where `f` panics no field changes. `f` must not call this monitor.
    ///
    /// # Errors
    ///
    /// [`Refused`] where its time is over and `red > 0` is false. Then nothing changes.
    pub fn get_red_until_with<R>(&self, end: Instant, f: impl FnOnce(&mut D) -> R) -> Result<R, Refused> {
        let mut inner = lock(&self.inner);
        while !inner.state.can_get_red() {
            let Some(left) = time_left(end) else {
                return Err(Refused);
            };
            inner.asleep_get_red += 1;
            inner = wait_for(&self.can_get_red, inner, left);
            inner.asleep_get_red -= 1;
        }
        let hand = HandOn(&self.can_get_red);
        let mut next = inner.state;
        next.run_get_red();
        let result = f(&mut inner.data);
        std::mem::forget(hand);
        inner.state = next;
        let copy = inner.copy();
        drop(inner);
        if copy.asleep_put_red > 0 {
            self.can_put_red.notify_one();
        }
        Ok(result)
    }

    /// As [`get_red`](Self::get_red), but waits for `red > 0` no longer than `time`.
    ///
    /// # Errors
    ///
    /// [`Refused`] where its time is over and `red > 0` is false. Then nothing changes.
    pub fn get_red_for(&self, time: Duration) -> Result<(), Refused> {
        let Some(end) = Instant::now().checked_add(time) else {
            self.get_red();
            return Ok(());
        };
        self.get_red_until(end)
    }

    /// As [`get_red_for`](Self::get_red_for), and calls `f` with the data under the same lock.
    ///
    /// Where `f` panics no field changes. `f` must not call this monitor.
    ///
    /// # Errors
    ///
    /// [`Refused`] where its time is over and `red > 0` is false. Then nothing changes.
    pub fn get_red_for_with<R>(&self, time: Duration, f: impl FnOnce(&mut D) -> R) -> Result<R, Refused> {
        let Some(end) = Instant::now().checked_add(time) else {
            return Ok(self.get_red_with(f));
        };
        self.get_red_until_with(end, f)
    }

    /// Waits until `red < total`.
    pub fn get_blue(&self) {
        let mut inner = lock(&self.inner);
        while !inner.state.can_get_blue() {
            inner.asleep_get_blue += 1;
            inner = wait(&self.can_get_blue, inner);
            inner.asleep_get_blue -= 1;
        }
        inner.state.run_get_blue();
        let copy = inner.copy();
        drop(inner);
        if copy.asleep_put_red > 0 {
            self.can_put_red.notify_one();
        }
    }

    /// As [`get_blue`](Self::get_blue), and calls `f` with the data under the same lock.
    ///
    /// Where `f` panics no field changes. `f` must not call this monitor.
    pub fn get_blue_with<R>(&self, f: impl FnOnce(&mut D) -> R) -> R {
        let mut inner = lock(&self.inner);
        while !inner.state.can_get_blue() {
            inner.asleep_get_blue += 1;
            inner = wait(&self.can_get_blue, inner);
            inner.asleep_get_blue -= 1;
        }
        let hand = HandOn(&self.can_get_blue);
        let mut next = inner.state;
        next.run_get_blue();
        let result = f(&mut inner.data);
        std::mem::forget(hand);
        inner.state = next;
        let copy = inner.copy();
        drop(inner);
        if copy.asleep_put_red > 0 {
            self.can_put_red.notify_one();
        }
        result
    }

    /// As [`get_blue`](Self::get_blue), but does not wait until `red < total`.
    ///
    /// # Errors
    ///
    /// [`Refused`] where `red < total` is false. Then nothing changes.
    pub fn try_get_blue(&self) -> Result<(), Refused> {
        let mut inner = lock(&self.inner);
        if !inner.state.can_get_blue() {
            return Err(Refused);
        }
        inner.state.run_get_blue();
        let copy = inner.copy();
        drop(inner);
        if copy.asleep_put_red > 0 {
            self.can_put_red.notify_one();
        }
        Ok(())
    }

    /// As [`try_get_blue`](Self::try_get_blue), and calls `f` with the data under the same lock.
    ///
    /// Where `f` panics no field changes. `f` must not call this monitor.
    ///
    /// # Errors
    ///
    /// [`Refused`] where `red < total` is false. Then nothing changes.
    pub fn try_get_blue_with<R>(&self, f: impl FnOnce(&mut D) -> R) -> Result<R, Refused> {
        let mut inner = lock(&self.inner);
        if !inner.state.can_get_blue() {
            return Err(Refused);
        }
        let hand = HandOn(&self.can_get_blue);
        let mut next = inner.state;
        next.run_get_blue();
        let result = f(&mut inner.data);
        std::mem::forget(hand);
        inner.state = next;
        let copy = inner.copy();
        drop(inner);
        if copy.asleep_put_red > 0 {
            self.can_put_red.notify_one();
        }
        Ok(result)
    }

    /// As [`get_blue`](Self::get_blue), but waits for `red < total` no longer than until `end`.
    ///
    /// # Errors
    ///
    /// [`Refused`] where its time is over and `red < total` is false. Then nothing changes.
    pub fn get_blue_until(&self, end: Instant) -> Result<(), Refused> {
        let mut inner = lock(&self.inner);
        while !inner.state.can_get_blue() {
            let Some(left) = time_left(end) else {
                return Err(Refused);
            };
            inner.asleep_get_blue += 1;
            inner = wait_for(&self.can_get_blue, inner, left);
            inner.asleep_get_blue -= 1;
        }
        inner.state.run_get_blue();
        let copy = inner.copy();
        drop(inner);
        if copy.asleep_put_red > 0 {
            self.can_put_red.notify_one();
        }
        Ok(())
    }

    /// As [`get_blue_until`](Self::get_blue_until), and calls `f` with the data under the same lock.
    ///
    /// Where `f` panics no field changes. `f` must not call this monitor.
    ///
    /// # Errors
    ///
    /// [`Refused`] where its time is over and `red < total` is false. Then nothing changes.
    pub fn get_blue_until_with<R>(&self, end: Instant, f: impl FnOnce(&mut D) -> R) -> Result<R, Refused> {
        let mut inner = lock(&self.inner);
        while !inner.state.can_get_blue() {
            let Some(left) = time_left(end) else {
                return Err(Refused);
            };
            inner.asleep_get_blue += 1;
            inner = wait_for(&self.can_get_blue, inner, left);
            inner.asleep_get_blue -= 1;
        }
        let hand = HandOn(&self.can_get_blue);
        let mut next = inner.state;
        next.run_get_blue();
        let result = f(&mut inner.data);
        std::mem::forget(hand);
        inner.state = next;
        let copy = inner.copy();
        drop(inner);
        if copy.asleep_put_red > 0 {
            self.can_put_red.notify_one();
        }
        Ok(result)
    }

    /// As [`get_blue`](Self::get_blue), but waits for `red < total` no longer than `time`.
    ///
    /// # Errors
    ///
    /// [`Refused`] where its time is over and `red < total` is false. Then nothing changes.
    pub fn get_blue_for(&self, time: Duration) -> Result<(), Refused> {
        let Some(end) = Instant::now().checked_add(time) else {
            self.get_blue();
            return Ok(());
        };
        self.get_blue_until(end)
    }

    /// As [`get_blue_for`](Self::get_blue_for), and calls `f` with the data under the same lock.
    ///
    /// Where `f` panics no field changes. `f` must not call this monitor.
    ///
    /// # Errors
    ///
    /// [`Refused`] where its time is over and `red < total` is false. Then nothing changes.
    pub fn get_blue_for_with<R>(&self, time: Duration, f: impl FnOnce(&mut D) -> R) -> Result<R, Refused> {
        let Some(end) = Instant::now().checked_add(time) else {
            return Ok(self.get_blue_with(f));
        };
        self.get_blue_until_with(end, f)
    }

    /// Waits until `total == ROOM`.
    pub fn drain(&self) {
        let mut inner = lock(&self.inner);
        while !inner.state.can_drain() {
            inner.asleep_drain += 1;
            inner = wait(&self.can_drain, inner);
            inner.asleep_drain -= 1;
        }
        inner.state.run_drain();
        let copy = inner.copy();
        drop(inner);
        if copy.asleep_put_red > 0 {
            self.can_put_red.notify_all();
        }
    }

    /// As [`drain`](Self::drain), and calls `f` with the data under the same lock.
    ///
    /// Where `f` panics no field changes. `f` must not call this monitor.
    pub fn drain_with<R>(&self, f: impl FnOnce(&mut D) -> R) -> R {
        let mut inner = lock(&self.inner);
        while !inner.state.can_drain() {
            inner.asleep_drain += 1;
            inner = wait(&self.can_drain, inner);
            inner.asleep_drain -= 1;
        }
        let hand = HandOn(&self.can_drain);
        let mut next = inner.state;
        next.run_drain();
        let result = f(&mut inner.data);
        std::mem::forget(hand);
        inner.state = next;
        let copy = inner.copy();
        drop(inner);
        if copy.asleep_put_red > 0 {
            self.can_put_red.notify_all();
        }
        result
    }

    /// As [`drain`](Self::drain), but does not wait until `total == ROOM`.
    ///
    /// # Errors
    ///
    /// [`Refused`] where `total == ROOM` is false. Then nothing changes.
    pub fn try_drain(&self) -> Result<(), Refused> {
        let mut inner = lock(&self.inner);
        if !inner.state.can_drain() {
            return Err(Refused);
        }
        inner.state.run_drain();
        let copy = inner.copy();
        drop(inner);
        if copy.asleep_put_red > 0 {
            self.can_put_red.notify_all();
        }
        Ok(())
    }

    /// As [`try_drain`](Self::try_drain), and calls `f` with the data under the same lock.
    ///
    /// Where `f` panics no field changes. `f` must not call this monitor.
    ///
    /// # Errors
    ///
    /// [`Refused`] where `total == ROOM` is false. Then nothing changes.
    pub fn try_drain_with<R>(&self, f: impl FnOnce(&mut D) -> R) -> Result<R, Refused> {
        let mut inner = lock(&self.inner);
        if !inner.state.can_drain() {
            return Err(Refused);
        }
        let hand = HandOn(&self.can_drain);
        let mut next = inner.state;
        next.run_drain();
        let result = f(&mut inner.data);
        std::mem::forget(hand);
        inner.state = next;
        let copy = inner.copy();
        drop(inner);
        if copy.asleep_put_red > 0 {
            self.can_put_red.notify_all();
        }
        Ok(result)
    }

    /// As [`drain`](Self::drain), but waits for `total == ROOM` no longer than until `end`.
    ///
    /// # Errors
    ///
    /// [`Refused`] where its time is over and `total == ROOM` is false. Then nothing changes.
    pub fn drain_until(&self, end: Instant) -> Result<(), Refused> {
        let mut inner = lock(&self.inner);
        while !inner.state.can_drain() {
            let Some(left) = time_left(end) else {
                return Err(Refused);
            };
            inner.asleep_drain += 1;
            inner = wait_for(&self.can_drain, inner, left);
            inner.asleep_drain -= 1;
        }
        inner.state.run_drain();
        let copy = inner.copy();
        drop(inner);
        if copy.asleep_put_red > 0 {
            self.can_put_red.notify_all();
        }
        Ok(())
    }

    /// As [`drain_until`](Self::drain_until), and calls `f` with the data under the same lock.
    ///
    /// Where `f` panics no field changes. `f` must not call this monitor.
    ///
    /// # Errors
    ///
    /// [`Refused`] where its time is over and `total == ROOM` is false. Then nothing changes.
    pub fn drain_until_with<R>(&self, end: Instant, f: impl FnOnce(&mut D) -> R) -> Result<R, Refused> {
        let mut inner = lock(&self.inner);
        while !inner.state.can_drain() {
            let Some(left) = time_left(end) else {
                return Err(Refused);
            };
            inner.asleep_drain += 1;
            inner = wait_for(&self.can_drain, inner, left);
            inner.asleep_drain -= 1;
        }
        let hand = HandOn(&self.can_drain);
        let mut next = inner.state;
        next.run_drain();
        let result = f(&mut inner.data);
        std::mem::forget(hand);
        inner.state = next;
        let copy = inner.copy();
        drop(inner);
        if copy.asleep_put_red > 0 {
            self.can_put_red.notify_all();
        }
        Ok(result)
    }

    /// As [`drain`](Self::drain), but waits for `total == ROOM` no longer than `time`.
    ///
    /// # Errors
    ///
    /// [`Refused`] where its time is over and `total == ROOM` is false. Then nothing changes.
    pub fn drain_for(&self, time: Duration) -> Result<(), Refused> {
        let Some(end) = Instant::now().checked_add(time) else {
            self.drain();
            return Ok(());
        };
        self.drain_until(end)
    }

    /// As [`drain_for`](Self::drain_for), and calls `f` with the data under the same lock.
    ///
    /// Where `f` panics no field changes. `f` must not call this monitor.
    ///
    /// # Errors
    ///
    /// [`Refused`] where its time is over and `total == ROOM` is false. Then nothing changes.
    pub fn drain_for_with<R>(&self, time: Duration, f: impl FnOnce(&mut D) -> R) -> Result<R, Refused> {
        let Some(end) = Instant::now().checked_add(time) else {
            return Ok(self.drain_with(f));
        };
        self.drain_until_with(end, f)
    }
}

impl Default for TwoKinds {
    fn default() -> Self {
        Self::new()
    }
}

impl<D> std::fmt::Debug for TwoKinds<D> {
    fn fmt(&self, f: &mut std::fmt::Formatter<'_>) -> std::fmt::Result {
        let state = match self.inner.try_lock() {
            Ok(inner) => Some(inner.state),
            Err(std::sync::TryLockError::Poisoned(inner)) => Some(inner.into_inner().state),
            Err(std::sync::TryLockError::WouldBlock) => None,
        };
        let mut text = f.debug_struct("TwoKinds");
        match state {
            Some(state) => text.field("state", &state),
            None => text.field("state", &format_args!("<locked>")),
        };
        text.finish_non_exhaustive()
    }
}

/// What the mutex guards: the fields, how many calls sleep on each condition, and the data.
#[allow(dead_code)]
struct Inner<D = ()> {
    state: State,
    asleep_put_red: usize,
    asleep_get_red: usize,
    asleep_get_blue: usize,
    asleep_drain: usize,
    data: D,
}

impl<D> Inner<D> {
    /// All but the data.
    #[allow(dead_code)]
    fn copy(&self) -> Inner {
        Inner {
            state: self.state,
            asleep_put_red: self.asleep_put_red,
            asleep_get_red: self.asleep_get_red,
            asleep_get_blue: self.asleep_get_blue,
            asleep_drain: self.asleep_drain,
            data: (),
        }
    }
}

/// The fields of the monitor.
#[derive(Clone, Copy, Debug)]
#[allow(dead_code)]
struct State {
    total: i64,
    red: i64,
}

// The guards and bodies, with expressions as the monitor has them.
#[rustfmt::skip]
#[allow(unused, unused_comparisons, clippy::all, clippy::pedantic)]
impl State {
    const START: Self = Self {
        total: 0,
        red: 0,
    };

    fn can_put_red(&self) -> bool {
        self.total < TwoKinds::ROOM
    }

    fn run_put_red(&mut self) {
        self.total = self.total + 1;
        self.red = self.red + 1;
    }

    fn run_put_blue(&mut self) {
        self.total = self.total + 1;
    }

    fn run_put(&mut self, is_red: bool) {
        self.total = self.total + 1;
        if is_red {
            self.red = self.red + 1;
        }
    }

    fn can_get_red(&self) -> bool {
        self.red > 0
    }

    fn run_get_red(&mut self) {
        self.red = self.red - 1;
        self.total = self.total - 1;
    }

    fn can_get_blue(&self) -> bool {
        self.red < self.total
    }

    fn run_get_blue(&mut self) {
        self.total = self.total - 1;
    }

    fn can_drain(&self) -> bool {
        self.total == TwoKinds::ROOM
    }

    fn run_drain(&mut self) {
        self.total = 0;
        self.red = 0;
    }
}

/// Locks the monitor, poisoned or not: where a function panicked its block changed no field.
fn lock<D>(inner: &Mutex<Inner<D>>) -> MutexGuard<'_, Inner<D>> {
    inner.lock().unwrap_or_else(PoisonError::into_inner)
}

/// Gives the lock back and waits on the condition, in one step, and takes the lock again.
fn wait<'a, D>(condition: &Condvar, inner: MutexGuard<'a, Inner<D>>) -> MutexGuard<'a, Inner<D>> {
    condition
        .wait(inner)
        .unwrap_or_else(PoisonError::into_inner)
}

/// Wakes one call that waits on the condition, where a block ends that changed nothing.
#[allow(dead_code)]
struct HandOn<'a>(&'a Condvar);

impl Drop for HandOn<'_> {
    fn drop(&mut self) {
        self.0.notify_one();
    }
}

/// As `wait`, but no longer than this.
fn wait_for<'a, D>(
    condition: &Condvar,
    inner: MutexGuard<'a, Inner<D>>,
    left: Duration,
) -> MutexGuard<'a, Inner<D>> {
    condition
        .wait_timeout(inner, left)
        .unwrap_or_else(PoisonError::into_inner)
        .0
}

/// How long it is until then, or `None` where it has come.
fn time_left(end: Instant) -> Option<Duration> {
    end.checked_duration_since(Instant::now())
        .filter(|left| !left.is_zero())
}

/// The guard was false, and the call did not wait, or not any longer. Nothing changed.
#[derive(Clone, Copy, Debug, PartialEq, Eq)]
pub struct Refused;

impl std::fmt::Display for Refused {
    fn fmt(&self, f: &mut std::fmt::Formatter<'_>) -> std::fmt::Result {
        f.write_str("the guard is false")
    }
}

impl std::error::Error for Refused {}
