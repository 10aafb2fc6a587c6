// The monitor `Tickets` as a module of Rust, made by `expresso emit` 0.2.0.
// Change the monitor, and not this file. It wants Rust 1.65 and the edition 2021, or later ones.

use std::sync::{Condvar, Mutex, MutexGuard, PoisonError};
use std::time::{Duration, Instant};

/// The monitor `Tickets`. Threads share it by reference. A call waits for its guard, unless it tries.
///
/// Its lock guards data `D` too, for the functions that calls are given.
/**
# Plan

```text
plan Tickets
keep next >= 0
keep serving >= 0
keep !broken
keep serving <= next
condition 1 broadcast: true
condition 2 broadcast: ticket == serving && serving < next && !busy
condition 3 signal: busy
condition 4 broadcast: serving == next && !busy
condition 5 signal: serving > next
block draw: 2 broadcast
block enter: 3 signal
block giveUp: 2 broadcast, 4 broadcast tested
block leave: 2 broadcast, 4 broadcast tested
block rest: none
block fail: none
```
*/
#[allow(dead_code, non_camel_case_types)]
#[allow(clippy::doc_markdown, clippy::upper_case_acronyms)]
pub struct Tickets<D = ()> {
    inner: Mutex<Inner<D>>,
    /// For calls that wait until `ticket == serving && serving < next && !busy`.
    can_enter: Condvar,
    /// For calls that wait until `busy`.
    can_leave: Condvar,
    /// For calls that wait until `serving == next && !busy`.
    can_rest: Condvar,
    /// For calls that wait until `serving > next`.
    can_fail: Condvar,
}

#[rustfmt::skip]
#[allow(dead_code, clippy::doc_markdown, clippy::style)]
impl Tickets {
    /// The monitor at its start.
    #[must_use]
    pub const fn new() -> Self {
        Self::with_data(())
    }
}

#[rustfmt::skip]
#[allow(dead_code, non_snake_case)]
#[allow(clippy::doc_markdown, clippy::style, clippy::too_many_arguments)]
impl<D> Tickets<D> {
    /// The monitor at its start, with these data.
    #[must_use]
    pub const fn with_data(data: D) -> Self {
        Self {
            inner: Mutex::new(Inner {
                state: State::START,
                asleep_enter: 0,
                asleep_leave: 0,
                asleep_rest: 0,
                asleep_fail: 0,
                data,
            }),
            can_enter: Condvar::new(),
            can_leave: Condvar::new(),
            can_rest: Condvar::new(),
            can_fail: Condvar::new(),
        }
    }

    /// The data, which nobody shares now.
    #[must_use]
    pub fn get_mut(&mut self) -> &mut D {
        &mut self.inner.get_mut().unwrap_or_else(PoisonError::into_inner).data
    }

    /// The data, without the monitor.
    #[must_use]
    pub fn into_inner(self) -> D {
        self.inner.into_inner().unwrap_or_else(PoisonError::into_inner).data
    }

    /// Whether the mutex is poisoned, as where a function panicked that a call was given.
    #[must_use]
    pub fn is_poisoned(&self) -> bool {
        self.inner.is_poisoned()
    }

    /// Does not wait.
    ///
    /// # Errors
    ///
    /// [`Overflow`] where a number would leave 64 bits. Then nothing changes.
    pub fn draw(&self) -> Result<i64, Overflow> {
        let mut inner = lock(&self.inner);
        let answer = inner.state.run_draw()?;
        let copy = inner.copy();
        drop(inner);
        if copy.asleep_enter > 0 {
            self.can_enter.notify_all();
        }
        Ok(answer)
    }

    /// As [`draw`](Self::draw), and calls `f` with the data and the answer under the same lock.
    ///
    /// Where `f` panics no field changes. `f` must not call this monitor.
    ///
    /// # Errors
    ///
    /// [`Overflow`] where a number would leave 64 bits. Then nothing changes.
    pub fn draw_with<R>(&self, f: impl FnOnce(&mut D, i64) -> R) -> Result<R, Overflow> {
        let mut inner = lock(&self.inner);
        let mut next = inner.state;
        let answer = next.run_draw()?;
        let result = f(&mut inner.data, answer);
        inner.state = next;
        let copy = inner.copy();
        drop(inner);
        if copy.asleep_enter > 0 {
            self.can_enter.notify_all();
        }
        Ok(result)
    }

    /// Waits until `ticket == serving && serving < next && !busy`.
    pub fn enter(&self, ticket: i64) {
        let mut inner = lock(&self.inner);
        while !inner.state.can_enter(ticket) {
            inner.asleep_enter += 1;
            inner = wait(&self.can_enter, inner);
            inner.asleep_enter -= 1;
        }
        inner.state.run_enter(ticket);
        let copy = inner.copy();
        drop(inner);
        if copy.asleep_leave > 0 {
            self.can_leave.notify_one();
        }
    }

    /// As [`enter`](Self::enter), and calls `f` with the data under the same lock.
    ///
    /// Where `f` panics no field changes. `f` must not call this monitor.
    pub fn enter_with<R>(&self, ticket: i64, f: impl FnOnce(&mut D) -> R) -> R {
        let mut inner = lock(&self.inner);
        while !inner.state.can_enter(ticket) {
            inner.asleep_enter += 1;
            inner = wait(&self.can_enter, inner);
            inner.asleep_enter -= 1;
        }
        let hand = HandOn(&self.can_enter);
        let mut next = inner.state;
        next.run_enter(ticket);
        let result = f(&mut inner.data);
        std::mem::forget(hand);
        inner.state = next;
        let copy = inner.copy();
        drop(inner);
        if copy.asleep_leave > 0 {
            self.can_leave.notify_one();
        }
        result
    }

    /// As [`enter`](Self::enter), but does not wait until `ticket == serving && serving < next && !busy`.
    ///
    /// # Errors
    ///
    /// [`Refused`] where `ticket == serving && serving < next && !busy` is false. Then nothing changes.
    pub fn try_enter(&self, ticket: i64) -> Result<(), Refused> {
        let mut inner = lock(&self.inner);
        if !inner.state.can_enter(ticket) {
            return Err(Refused);
        }
        inner.state.run_enter(ticket);
        let copy = inner.copy();
        drop(inner);
        if copy.asleep_leave > 0 {
            self.can_leave.notify_one();
        }
        Ok(())
    }

    /// As [`try_enter`](Self::try_enter), and calls `f` with the data under the same lock.
    ///
    /// Where `f` panics no field changes. `f` must not call this monitor.
    ///
    /// # Errors
    ///
    /// [`Refused`] where `ticket == serving && serving < next && !busy` is false. Then nothing changes.
    pub fn try_enter_with<R>(&self, ticket: i64, f: impl FnOnce(&mut D) -> R) -> Result<R, Refused> {
        let mut inner = lock(&self.inner);
        if !inner.state.can_enter(ticket) {
            return Err(Refused);
        }
        let hand = HandOn(&self.can_enter);
        let mut next = inner.state;
        next.run_enter(ticket);
        let result = f(&mut inner.data);
        std::mem::forget(hand);
        inner.state = next;
        let copy = inner.copy();
        drop(inner);
        if copy.asleep_leave > 0 {
            self.can_leave.notify_one();
        }
        Ok(result)
    }

    /// As [`enter`](Self::enter), but waits for `ticket == serving && serving < next && !busy` no longer than until `end`.
    ///
    /// # Errors
    ///
    /// [`Refused`] where its time is over and `ticket == serving && serving < next && !busy` is false. Then nothing changes.
    pub fn enter_until(&self, ticket: i64, end: Instant) -> Result<(), Refused> {
        let mut inner = lock(&self.inner);
        while !inner.state.can_enter(ticket) {
            let Some(left) = time_left(end) else {
                return Err(Refused);
            };
            inner.asleep_enter += 1;
            inner = wait_for(&self.can_enter, inner, left);
            inner.asleep_enter -= 1;
        }
        inner.state.run_enter(ticket);
        let copy = inner.copy();
        drop(inner);
        if copy.asleep_leave > 0 {
            self.can_leave.notify_one();
        }
        Ok(())
    }

    /// As [`enter_until`](Self::enter_until), and calls `f` with the data under the same lock.
    ///
    /// Where `f` panics no field changes. `f` must not call this monitor.
    ///
    /// # Errors
    ///
    /// [`Refused`] where its time is over and `ticket == serving && serving < next && !busy` is false. Then nothing changes.
    pub fn enter_until_with<R>(&self, ticket: i64, end: Instant, f: impl FnOnce(&mut D) -> R) -> Result<R, Refused> {
        let mut inner = lock(&self.inner);
        while !inner.state.can_enter(ticket) {
            let Some(left) = time_left(end) else {
                return Err(Refused);
            };
            inner.asleep_enter += 1;
            inner = wait_for(&self.can_enter, inner, left);
            inner.asleep_enter -= 1;
        }
        let hand = HandOn(&self.can_enter);
        let mut next = inner.state;
        next.run_enter(ticket);
        let result = f(&mut inner.data);
        std::mem::forget(hand);
        inner.state = next;
        let copy = inner.copy();
        drop(inner);
        if copy.asleep_leave > 0 {
            self.can_leave.notify_one();
        }
        Ok(result)
    }

    /// As [`enter`](Self::enter), but waits for `ticket == serving && serving < next && !busy` no longer than `time`.
    ///
    /// # Errors
    ///
    /// [`Refused`] where its time is over and `ticket == serving && serving < next && !busy` is false. Then nothing changes.
    pub fn enter_for(&self, ticket: i64, time: Duration) -> Result<(), Refused> {
        let Some(end) = Instant::now().checked_add(time) else {
            self.enter(ticket);
            return Ok(());
        };
        self.enter_until(ticket, end)
    }

    /// As [`enter_for`](Self::enter_for), and calls `f` with the data under the same lock.
    ///
    /// Where `f` panics no field changes. `f` must not call this monitor.
    ///
    /// # Errors
    ///
    /// [`Refused`] where its time is over and `ticket == serving && serving < next && !busy` is false. Then nothing changes.
    pub fn enter_for_with<R>(&self, ticket: i64, time: Duration, f: impl FnOnce(&mut D) -> R) -> Result<R, Refused> {
        let Some(end) = Instant::now().checked_add(time) else {
            return Ok(self.enter_with(ticket, f));
        };
        self.enter_until_with(ticket, end, f)
    }

    /// Waits until `turn == serving && serving < next && !busy`.
    pub fn give_up(&self, turn: i64) {
        let mut inner = lock(&self.inner);
        while !inner.state.can_give_up(turn) {
            inner.asleep_enter += 1;
            inner = wait(&self.can_enter, inner);
            inner.asleep_enter -= 1;
        }
        inner.state.run_give_up(turn);
        let copy = inner.copy();
        drop(inner);
        if copy.asleep_enter > 0 {
            self.can_enter.notify_all();
        }
        if copy.asleep_rest > 0 && copy.state.can_rest() {
            self.can_rest.notify_all();
        }
    }

    /// As [`give_up`](Self::give_up), and calls `f` with the data under the same lock.
    ///
    /// Where `f` panics no field changes. `f` must not call this monitor.
    pub fn give_up_with<R>(&self, turn: i64, f: impl FnOnce(&mut D) -> R) -> R {
        let mut inner = lock(&self.inner);
        while !inner.state.can_give_up(turn) {
            inner.asleep_enter += 1;
            inner = wait(&self.can_enter, inner);
            inner.asleep_enter -= 1;
        }
        let hand = HandOn(&self.can_enter);
        let mut next = inner.state;
        next.run_give_up(turn);
        let result = f(&mut inner.data);
        std::mem::forget(hand);
        inner.state = next;
        let copy = inner.copy();
        drop(inner);
        if copy.asleep_enter > 0 {
            self.can_enter.notify_all();
        }
        if copy.asleep_rest > 0 && copy.state.can_rest() {
            self.can_rest.notify_all();
        }
        result
    }

    /// As [`give_up`](Self::give_up), but does not wait until `turn == serving && serving < next && !busy`.
    ///
    /// # Errors
    ///
    /// [`Refused`] where `turn == serving && serving < next && !busy` is false. Then nothing changes.
    pub fn try_give_up(&self, turn: i64) -> Result<(), Refused> {
        let mut inner = lock(&self.inner);
        if !inner.state.can_give_up(turn) {
            return Err(Refused);
        }
        inner.state.run_give_up(turn);
        let copy = inner.copy();
        drop(inner);
        if copy.asleep_enter > 0 {
            self.can_enter.notify_all();
        }
        if copy.asleep_rest > 0 && copy.state.can_rest() {
            self.can_rest.notify_all();
        }
        Ok(())
    }

    /// As [`try_give_up`](Self::try_give_up), and calls `f` with the data under the same lock.
    ///
    /// Where `f` panics no field changes. `f` must not call this monitor.
    ///
    /// # Errors
    ///
    /// [`Refused`] where `turn == serving && serving < next && !busy` is false. Then nothing changes.
    pub fn try_give_up_with<R>(&self, turn: i64, f: impl FnOnce(&mut D) -> R) -> Result<R, Refused> {
        let mut inner = lock(&self.inner);
        if !inner.state.can_give_up(turn) {
            return Err(Refused);
        }
        let hand = HandOn(&self.can_enter);
        let mut next = inner.state;
        next.run_give_up(turn);
        let result = f(&mut inner.data);
        std::mem::forget(hand);
        inner.state = next;
        let copy = inner.copy();
        drop(inner);
        if copy.asleep_enter > 0 {
            self.can_enter.notify_all();
        }
        if copy.asleep_rest > 0 && copy.state.can_rest() {
            self.can_rest.notify_all();
        }
        Ok(result)
    }

    /// As [`give_up`](Self::give_up), but waits for `turn == serving && serving < next && !busy` no longer than until `end`.
    ///
    /// # Errors
    ///
    /// [`Refused`] where its time is over and `turn == serving && serving < next && !busy` is false. Then nothing changes.
    pub fn give_up_until(&self, turn: i64, end: Instant) -> Result<(), Refused> {
        let mut inner = lock(&self.inner);
        while !inner.state.can_give_up(turn) {
            let Some(left) = time_left(end) else {
                return Err(Refused);
            };
            inner.asleep_enter += 1;
            inner = wait_for(&self.can_enter, inner, left);
            inner.asleep_enter -= 1;
        }
        inner.state.run_give_up(turn);
        let copy = inner.copy();
        drop(inner);
        if copy.asleep_enter > 0 {
            self.can_enter.notify_all();
        }
        if copy.asleep_rest > 0 && copy.state.can_rest() {
            self.can_rest.notify_all();
        }
        Ok(())
    }

    /// As [`give_up_until`](Self::give_up_until), and calls `f` with the data under the same lock.
    ///
    /// Where `f` panics no field changes. `f` must not call this monitor.
    ///
    /// # Errors
    ///
    /// [`Refused`] where its time is over and `turn == serving && serving < next && !busy` is false. Then nothing changes.
    pub fn give_up_until_with<R>(&self, turn: i64, end: Instant, f: impl FnOnce(&mut D) -> R) -> Result<R, Refused> {
        let mut inner = lock(&self.inner);
        while !inner.state.can_give_up(turn) {
            let Some(left) = time_left(end) else {
                return Err(Refused);
            };
            inner.asleep_enter += 1;
            inner = wait_for(&self.can_enter, inner, left);
            inner.asleep_enter -= 1;
        }
        let hand = HandOn(&self.can_enter);
        let mut next = inner.state;
        next.run_give_up(turn);
        let result = f(&mut inner.data);
        std::mem::forget(hand);
        inner.state = next;
        let copy = inner.copy();
        drop(inner);
        if copy.asleep_enter > 0 {
            self.can_enter.notify_all();
        }
        if copy.asleep_rest > 0 && copy.state.can_rest() {
            self.can_rest.notify_all();
        }
        Ok(result)
    }

    /// As [`give_up`](Self::give_up), but waits for `turn == serving && serving < next && !busy` no longer than `time`.
    ///
    /// # Errors
    ///
    /// [`Refused`] where its time is over and `turn == serving && serving < next && !busy` is false. Then nothing changes.
    pub fn give_up_for(&self, turn: i64, time: Duration) -> Result<(), Refused> {
        let Some(end) = Instant::now().checked_add(time) else {
            self.give_up(turn);
            return Ok(());
        };
        self.give_up_until(turn, end)
    }

    /// As [`give_up_for`](Self::give_up_for), and calls `f` with the data under the same lock.
    ///
    /// Where `f` panics no field changes. `f` must not call this monitor.
    ///
    /// # Errors
    ///
    /// [`Refused`] where its time is over and `turn == serving && serving < next && !busy` is false. Then nothing changes.
    pub fn give_up_for_with<R>(&self, turn: i64, time: Duration, f: impl FnOnce(&mut D) -> R) -> Result<R, Refused> {
        let Some(end) = Instant::now().checked_add(time) else {
            return Ok(self.give_up_with(turn, f));
        };
        self.give_up_until_with(turn, end, f)
    }

    /// Waits until `busy`.
    pub fn leave(&self) {
        let mut inner = lock(&self.inner);
        while !inner.state.can_leave() {
            inner.asleep_leave += 1;
            inner = wait(&self.can_leave, inner);
            inner.asleep_leave -= 1;
        }
        inner.state.run_leave();
        let copy = inner.copy();
        drop(inner);
        if copy.asleep_enter > 0 {
            self.can_enter.notify_all();
        }
        if copy.asleep_rest > 0 && copy.state.can_rest() {
            self.can_rest.notify_all();
        }
    }

    /// As [`leave`](Self::leave), and calls `f` with the data under the same lock.
    ///
    /// Where `f` panics no field changes. `f` must not call this monitor.
    pub fn leave_with<R>(&self, f: impl FnOnce(&mut D) -> R) -> R {
        let mut inner = lock(&self.inner);
        while !inner.state.can_leave() {
            inner.asleep_leave += 1;
            inner = wait(&self.can_leave, inner);
            inner.asleep_leave -= 1;
        }
        let hand = HandOn(&self.can_leave);
        let mut next = inner.state;
        next.run_leave();
        let result = f(&mut inner.data);
        std::mem::forget(hand);
        inner.state = next;
        let copy = inner.copy();
        drop(inner);
        if copy.asleep_enter > 0 {
            self.can_enter.notify_all();
        }
        if copy.asleep_rest > 0 && copy.state.can_rest() {
            self.can_rest.notify_all();
        }
        result
    }

    /// As [`leave`](Self::leave), but does not wait until `busy`.
    ///
    /// # Errors
    ///
    /// [`Refused`] where `busy` is false. Then nothing changes.
    pub fn try_leave(&self) -> Result<(), Refused> {
        let mut inner = lock(&self.inner);
        if !inner.state.can_leave() {
            return Err(Refused);
        }
        inner.state.run_leave();
        let copy = inner.copy();
        drop(inner);
        if copy.asleep_enter > 0 {
            self.can_enter.notify_all();
        }
        if copy.asleep_rest > 0 && copy.state.can_rest() {
            self.can_rest.notify_all();
        }
        Ok(())
    }

    /// As [`try_leave`](Self::try_leave), and calls `f` with the data under the same lock.
    ///
    /// Where `f` panics no field changes. `f` must not call this monitor.
    ///
    /// # Errors
    ///
    /// [`Refused`] where `busy` is false. Then nothing changes.
    pub fn try_leave_with<R>(&self, f: impl FnOnce(&mut D) -> R) -> Result<R, Refused> {
        let mut inner = lock(&self.inner);
        if !inner.state.can_leave() {
            return Err(Refused);
        }
        let hand = HandOn(&self.can_leave);
        let mut next = inner.state;
        next.run_leave();
        let result = f(&mut inner.data);
        std::mem::forget(hand);
        inner.state = next;
        let copy = inner.copy();
        drop(inner);
        if copy.asleep_enter > 0 {
            self.can_enter.notify_all();
        }
        if copy.asleep_rest > 0 && copy.state.can_rest() {
            self.can_rest.notify_all();
        }
        Ok(result)
    }

    /// As [`leave`](Self::leave), but waits for `busy` no longer than until `end`.
    ///
    /// # Errors
    ///
    /// [`Refused`] where its time is over and `busy` is false. Then nothing changes.
    pub fn leave_until(&self, end: Instant) -> Result<(), Refused> {
        let mut inner = lock(&self.inner);
        while !inner.state.can_leave() {
            let Some(left) = time_left(end) else {
                return Err(Refused);
            };
            inner.asleep_leave += 1;
            inner = wait_for(&self.can_leave, inner, left);
            inner.asleep_leave -= 1;
        }
        inner.state.run_leave();
        let copy = inner.copy();
        drop(inner);
        if copy.asleep_enter > 0 {
            self.can_enter.notify_all();
        }
        if copy.asleep_rest > 0 && copy.state.can_rest() {
            self.can_rest.notify_all();
        }
        Ok(())
    }

    /// As [`leave_until`](Self::leave_until), and calls `f` with the data under the same lock.
    ///
    /// Where `f` panics no field changes. `f` must not call this monitor.
    ///
    /// # Errors
    ///
    /// [`Refused`] where its time is over and `busy` is false. Then nothing changes.
    pub fn leave_until_with<R>(&self, end: Instant, f: impl FnOnce(&mut D) -> R) -> Result<R, Refused> {
        let mut inner = lock(&self.inner);
        while !inner.state.can_leave() {
            let Some(left) = time_left(end) else {
                return Err(Refused);
            };
            inner.asleep_leave += 1;
            inner = wait_for(&self.can_leave, inner, left);
            inner.asleep_leave -= 1;
        }
        let hand = HandOn(&self.can_leave);
        let mut next = inner.state;
        next.run_leave();
        let result = f(&mut inner.data);
        std::mem::forget(hand);
        inner.state = next;
        let copy = inner.copy();
        drop(inner);
        if copy.asleep_enter > 0 {
            self.can_enter.notify_all();
        }
        if copy.asleep_rest > 0 && copy.state.can_rest() {
            self.can_rest.notify_all();
        }
        Ok(result)
    }

    /// As [`leave`](Self::leave), but waits for `busy` no longer than `time`.
    ///
    /// # Errors
    ///
    /// [`Refused`] where its time is over and `busy` is false. Then nothing changes.
    pub fn leave_for(&self, time: Duration) -> Result<(), Refused> {
        let Some(end) = Instant::now().checked_add(time) else {
            self.leave();
            return Ok(());
        };
        self.leave_until(end)
    }

    /// As [`leave_for`](Self::leave_for), and calls `f` with the data under the same lock.
    ///
    /// Where `f` panics no field changes. `f` must not call this monitor.
    ///
    /// # Errors
    ///
    /// [`Refused`] where its time is over and `busy` is false. Then nothing changes.
    pub fn leave_for_with<R>(&self, time: Duration, f: impl FnOnce(&mut D) -> R) -> Result<R, Refused> {
        let Some(end) = Instant::now().checked_add(time) else {
            return Ok(self.leave_with(f));
        };
        self.leave_until_with(end, f)
    }

    /// Waits until `serving == next && !busy`.
    pub fn rest(&self) {
        let mut inner = lock(&self.inner);
        while !inner.state.can_rest() {
            inner.asleep_rest += 1;
            inner = wait(&self.can_rest, inner);
            inner.asleep_rest -= 1;
        }
        inner.state.run_rest();
        drop(inner);
    }

    /// As [`rest`](Self::rest), and calls `f` with the data under the same lock.
    ///
    /// Where `f` panics no field changes. `f` must not call this monitor.
    pub fn rest_with<R>(&self, f: impl FnOnce(&mut D) -> R) -> R {
        let mut inner = lock(&self.inner);
        while !inner.state.can_rest() {
            inner.asleep_rest += 1;
            inner = wait(&self.can_rest, inner);
            inner.asleep_rest -= 1;
        }
        let hand = HandOn(&self.can_rest);
        let mut next = inner.state;
        next.run_rest();
        let result = f(&mut inner.data);
        std::mem::forget(hand);
        inner.state = next;
        drop(inner);
        result
    }

    /// As [`rest`](Self::rest), but does not wait until `serving == next && !busy`.
    ///
    /// # Errors
    ///
    /// [`Refused`] where `serving == next && !busy` is false. Then nothing changes.
    pub fn try_rest(&self) -> Result<(), Refused> {
        let mut inner = lock(&self.inner);
        if !inner.state.can_rest() {
            return Err(Refused);
        }
        inner.state.run_rest();
        drop(inner);
        Ok(())
    }

    /// As [`try_rest`](Self::try_rest), and calls `f` with the data under the same lock.
    ///
    /// Where `f` panics no field changes. `f` must not call this monitor.
    ///
    /// # Errors
    ///
    /// [`Refused`] where `serving == next && !busy` is false. Then nothing changes.
    pub fn try_rest_with<R>(&self, f: impl FnOnce(&mut D) -> R) -> Result<R, Refused> {
        let mut inner = lock(&self.inner);
        if !inner.state.can_rest() {
            return Err(Refused);
        }
        let hand = HandOn(&self.can_rest);
        let mut next = inner.state;
        next.run_rest();
        let result = f(&mut inner.data);
        std::mem::forget(hand);
        inner.state = next;
        drop(inner);
        Ok(result)
    }

    /// As [`rest`](Self::rest), but waits for `serving == next && !busy` no longer than until `end`.
    ///
    /// # Errors
    ///
    /// [`Refused`] where its time is over and `serving == next && !busy` is false. Then nothing changes.
    pub fn rest_until(&self, end: Instant) -> Result<(), Refused> {
        let mut inner = lock(&self.inner);
        while !inner.state.can_rest() {
            let Some(left) = time_left(end) else {
                return Err(Refused);
            };
            inner.asleep_rest += 1;
            inner = wait_for(&self.can_rest, inner, left);
            inner.asleep_rest -= 1;
        }
        inner.state.run_rest();
        drop(inner);
        Ok(())
    }

    /// As [`rest_until`](Self::rest_until), and calls `f` with the data under the same lock.
    ///
    /// Where `f` panics no field changes. `f` must not call this monitor.
    ///
    /// # Errors
    ///
    /// [`Refused`] where its time is over and `serving == next && !busy` is false. Then nothing changes.
    pub fn rest_until_with<R>(&self, end: Instant, f: impl FnOnce(&mut D) -> R) -> Result<R, Refused> {
        let mut inner = lock(&self.inner);
        while !inner.state.can_rest() {
            let Some(left) = time_left(end) else {
                return Err(Refused);
            };
            inner.asleep_rest += 1;
            inner = wait_for(&self.can_rest, inner, left);
            inner.asleep_rest -= 1;
        }
        let hand = HandOn(&self.can_rest);
        let mut next = inner.state;
        next.run_rest();
        let result = f(&mut inner.data);
        std::mem::forget(hand);
        inner.state = next;
        drop(inner);
        Ok(result)
    }

    /// As [`rest`](Self::rest), but waits for `serving == next && !busy` no longer than `time`.
    ///
    /// # Errors
    ///
    /// [`Refused`] where its time is over and `serving == next && !busy` is false. Then nothing changes.
    pub fn rest_for(&self, time: Duration) -> Result<(), Refused> {
        let Some(end) = Instant::now().checked_add(time) else {
            self.rest();
            return Ok(());
        };
        self.rest_until(end)
    }

    /// As [`rest_for`](Self::rest_for), and calls `f` with the data under the same lock.
    ///
    /// Where `f` panics no field changes. `f` must not call this monitor.
    ///
    /// # Errors
    ///
    /// [`Refused`] where its time is over and `serving == next && !busy` is false. Then nothing changes.
    pub fn rest_for_with<R>(&self, time: Duration, f: impl FnOnce(&mut D) -> R) -> Result<R, Refused> {
        let Some(end) = Instant::now().checked_add(time) else {
            return Ok(self.rest_with(f));
        };
        self.rest_until_with(end, f)
    }

    /// Waits until `serving > next`.
    pub fn fail(&self) {
        let mut inner = lock(&self.inner);
        while !inner.state.can_fail() {
            inner.asleep_fail += 1;
            inner = wait(&self.can_fail, inner);
            inner.asleep_fail -= 1;
        }
        inner.state.run_fail();
        drop(inner);
    }

    /// As [`fail`](Self::fail), and calls `f` with the data under the same lock.
    ///
    /// Where `f` panics no field changes. `f` must not call this monitor.
    pub fn fail_with<R>(&self, f: impl FnOnce(&mut D) -> R) -> R {
        let mut inner = lock(&self.inner);
        while !inner.state.can_fail() {
            inner.asleep_fail += 1;
            inner = wait(&self.can_fail, inner);
            inner.asleep_fail -= 1;
        }
        let hand = HandOn(&self.can_fail);
        let mut next = inner.state;
        next.run_fail();
        let result = f(&mut inner.data);
        std::mem::forget(hand);
        inner.state = next;
        drop(inner);
        result
    }

    /// As [`fail`](Self::fail), but does not wait until `serving > next`.
    ///
    /// # Errors
    ///
    /// [`Refused`] where `serving > next` is false. Then nothing changes.
    pub fn try_fail(&self) -> Result<(), Refused> {
        let mut inner = lock(&self.inner);
        if !inner.state.can_fail() {
            return Err(Refused);
        }
        inner.state.run_fail();
        drop(inner);
        Ok(())
    }

    /// As [`try_fail`](Self::try_fail), and calls `f` with the data under the same lock.
    ///
    /// Where `f` panics no field changes. `f` must not call this monitor.
    ///
    /// # Errors
    ///
    /// [`Refused`] where `serving > next` is false. Then nothing changes.
    pub fn try_fail_with<R>(&self, f: impl FnOnce(&mut D) -> R) -> Result<R, Refused> {
        let mut inner = lock(&self.inner);
        if !inner.state.can_fail() {
            return Err(Refused);
        }
        let hand = HandOn(&self.can_fail);
        let mut next = inner.state;
        next.run_fail();
        let result = f(&mut inner.data);
        std::mem::forget(hand);
        inner.state = next;
        drop(inner);
        Ok(result)
    }

    /// As [`fail`](Self::fail), but waits for `serving > next` no longer than until `end`.
    ///
    /// # Errors
    ///
    /// [`Refused`] where its time is over and `serving > next` is false. Then nothing changes.
    pub fn fail_until(&self, end: Instant) -> Result<(), Refused> {
        let mut inner = lock(&self.inner);
        while !inner.state.can_fail() {
            let Some(left) = time_left(end) else {
                return Err(Refused);
            };
            inner.asleep_fail += 1;
            inner = wait_for(&self.can_fail, inner, left);
            inner.asleep_fail -= 1;
        }
        inner.state.run_fail();
        drop(inner);
        Ok(())
    }

    /// As [`fail_until`](Self::fail_until), and calls `f` with the data under the same lock.
    ///
    /// Where `f` panics no field changes. `f` must not call this monitor.
    ///
    /// # Errors
    ///
    /// [`Refused`] where its time is over and `serving > next` is false. Then nothing changes.
    pub fn fail_until_with<R>(&self, end: Instant, f: impl FnOnce(&mut D) -> R) -> Result<R, Refused> {
        let mut inner = lock(&self.inner);
        while !inner.state.can_fail() {
            let Some(left) = time_left(end) else {
                return Err(Refused);
            };
            inner.asleep_fail += 1;
            inner = wait_for(&self.can_fail, inner, left);
            inner.asleep_fail -= 1;
        }
        let hand = HandOn(&self.can_fail);
        let mut next = inner.state;
        next.run_fail();
        let result = f(&mut inner.data);
        std::mem::forget(hand);
        inner.state = next;
        drop(inner);
        Ok(result)
    }

    /// As [`fail`](Self::fail), but waits for `serving > next` no longer than `time`.
    ///
    /// # Errors
    ///
    /// [`Refused`] where its time is over and `serving > next` is false. Then nothing changes.
    pub fn fail_for(&self, time: Duration) -> Result<(), Refused> {
        let Some(end) = Instant::now().checked_add(time) else {
            self.fail();
            return Ok(());
        };
        self.fail_until(end)
    }

    /// As [`fail_for`](Self::fail_for), and calls `f` with the data under the same lock.
    ///
    /// Where `f` panics no field changes. `f` must not call this monitor.
    ///
    /// # Errors
    ///
    /// [`Refused`] where its time is over and `serving > next` is false. Then nothing changes.
    pub fn fail_for_with<R>(&self, time: Duration, f: impl FnOnce(&mut D) -> R) -> Result<R, Refused> {
        let Some(end) = Instant::now().checked_add(time) else {
            return Ok(self.fail_with(f));
        };
        self.fail_until_with(end, f)
    }
}

impl Default for Tickets {
    fn default() -> Self {
        Self::new()
    }
}

impl<D> std::fmt::Debug for Tickets<D> {
    fn fmt(&self, f: &mut std::fmt::Formatter<'_>) -> std::fmt::Result {
        let state = match self.inner.try_lock() {
            Ok(inner) => Some(inner.state),
            Err(std::sync::TryLockError::Poisoned(inner)) => Some(inner.into_inner().state),
            Err(std::sync::TryLockError::WouldBlock) => None,
        };
        let mut text = f.debug_struct("Tickets");
        match state {
            Some(state) => text.field("state", &state),
            None => text.field("state", &format_args!("<locked>")),
        };
        text.finish_non_exhaustive()
    }
}

/// What the mutex guards: the fields, how many calls sleep on each condition, and the data.
#[allow(dead_code)]
struct Inner<D = ()> {
    state: State,
    asleep_enter: usize,
    asleep_leave: usize,
    asleep_rest: usize,
    asleep_fail: usize,
    data: D,
}

impl<D> Inner<D> {
    /// All but the data.
    #[allow(dead_code)]
    fn copy(&self) -> Inner {
        Inner {
            state: self.state,
            asleep_enter: self.asleep_enter,
            asleep_leave: self.asleep_leave,
            asleep_rest: self.asleep_rest,
            asleep_fail: self.asleep_fail,
            data: (),
        }
    }
}

/// The fields of the monitor.
#[derive(Clone, Copy, Debug)]
#[allow(dead_code)]
struct State {
    next: i64,
    serving: i64,
    busy: bool,
    broken: bool,
}

// The guards and bodies, with expressions as the monitor has them.
#[rustfmt::skip]
#[allow(unused, unused_comparisons, clippy::all, clippy::pedantic)]
impl State {
    const START: Self = Self {
        next: 0,
        serving: 0,
        busy: false,
        broken: false,
    };

    fn run_draw(&mut self) -> Result<i64, Overflow> {
        let mut next = *self;
        next.next = narrow(i128::from(next.next) + 1)?;
        let answer = narrow(i128::from(next.next) - 1)?;
        *self = next;
        Ok(answer)
    }

    fn can_enter(&self, ticket: i64) -> bool {
        ticket == self.serving && self.serving < self.next && !self.busy
    }

    fn run_enter(&mut self, ticket: i64) {
        self.serving = self.serving + 1;
        self.busy = true;
    }

    fn can_give_up(&self, turn: i64) -> bool {
        turn == self.serving && self.serving < self.next && !self.busy
    }

    fn run_give_up(&mut self, turn: i64) {
        self.serving = self.serving + 1;
    }

    fn can_leave(&self) -> bool {
        self.busy
    }

    fn run_leave(&mut self) {
        self.busy = false;
    }

    fn can_rest(&self) -> bool {
        self.serving == self.next && !self.busy
    }

    fn run_rest(&mut self) {}

    fn can_fail(&self) -> bool {
        self.serving > self.next
    }

    fn run_fail(&mut self) {
        self.broken = true;
    }
}

/// Locks the monitor, poisoned or not: where a function panicked its block changed no field.
fn lock<D>(inner: &Mutex<Inner<D>>) -> MutexGuard<'_, Inner<D>> {
    inner.lock().unwrap_or_else(PoisonError::into_inner)
}

/// Gives the lock back and waits on the condition, in one step, and takes the lock again.
fn wait<'a, D>(condition: &Condvar, inner: MutexGuard<'a, Inner<D>>) -> MutexGuard<'a, Inner<D>> {
    condition
        .wait(inner)
        .unwrap_or_else(PoisonError::into_inner)
}

/// Wakes one call that waits on the condition, where a block ends that changed nothing.
#[allow(dead_code)]
struct HandOn<'a>(&'a Condvar);

impl Drop for HandOn<'_> {
    fn drop(&mut self) {
        self.0.notify_one();
    }
}

/// As `wait`, but no longer than this.
fn wait_for<'a, D>(
    condition: &Condvar,
    inner: MutexGuard<'a, Inner<D>>,
    left: Duration,
) -> MutexGuard<'a, Inner<D>> {
    condition
        .wait_timeout(inner, left)
        .unwrap_or_else(PoisonError::into_inner)
        .0
}

/// How long it is until then, or `None` where it has come.
fn time_left(end: Instant) -> Option<Duration> {
    end.checked_duration_since(Instant::now())
        .filter(|left| !left.is_zero())
}

/// A number would have left 64 bits.
#[derive(Clone, Copy, Debug, PartialEq, Eq)]
pub struct Overflow;

impl std::fmt::Display for Overflow {
    fn fmt(&self, f: &mut std::fmt::Formatter<'_>) -> std::fmt::Result {
        f.write_str("a number would leave 64 bits")
    }
}

impl std::error::Error for Overflow {}

/// The number, where it has 64 bits.
fn narrow(number: i128) -> Result<i64, Overflow> {
    i64::try_from(number).map_err(|_| Overflow)
}

/// The guard was false, and the call did not wait, or not any longer. Nothing changed.
#[derive(Clone, Copy, Debug, PartialEq, Eq)]
pub struct Refused;

impl std::fmt::Display for Refused {
    fn fmt(&self, f: &mut std::fmt::Formatter<'_>) -> std::fmt::Result {
        f.write_str("the guard is false")
    }
}

impl std::error::Error for Refused {}
