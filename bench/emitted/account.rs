// The monitor `Account` as a module of Rust, made by `expresso emit` 0.2.0.
// Change the monitor, and not this file. It wants Rust 1.65 and the edition 2021, or later ones.

use std::sync::{Condvar, Mutex, MutexGuard, PoisonError};
use std::time::{Duration, Instant};

/// The monitor `Account`. Threads share it by reference. A call waits for its guard, unless it tries.
///
/// Its lock guards data `D` too, for the functions that calls are given.
/**
# Plan

```text
plan Account
keep balance >= 0
keep rejected >= 0
condition 1 broadcast: !frozen
condition 2 broadcast: amount <= balance && !frozen
condition 3 signal: frozen
block deposit: 2 broadcast
block withdraw: 2 broadcast, 3 signal tested
block thaw: 1 broadcast, 2 broadcast
```
*/
#[allow(dead_code, non_camel_case_types)]
#[allow(clippy::doc_markdown, clippy::upper_case_acronyms)]
pub struct Account<D = ()> {
    inner: Mutex<Inner<D>>,
    /// For calls that wait until `!frozen`.
    can_deposit: Condvar,
    /// For calls that wait until `amount <= balance && !frozen`.
    can_withdraw: Condvar,
    /// For calls that wait until `frozen`.
    can_thaw: Condvar,
}

#[rustfmt::skip]
#[allow(dead_code, clippy::doc_markdown, clippy::style)]
impl Account {
    /// The constant `LIMIT`.
    pub const LIMIT: i64 = 1000;

    /// The monitor at its start.
    #[must_use]
    pub const fn new() -> Self {
        Self::with_data(())
    }
}

#[rustfmt::skip]
#[allow(dead_code, non_snake_case)]
#[allow(clippy::doc_markdown, clippy::style, clippy::too_many_arguments)]
impl<D> Account<D> {
    /// The monitor at its start, with these data.
    #[must_use]
    pub const fn with_data(data: D) -> Self {
        Self {
            inner: Mutex::new(Inner {
                state: State::START,
                asleep_deposit: 0,
                asleep_withdraw: 0,
                asleep_thaw: 0,
                data,
            }),
            can_deposit: Condvar::new(),
            can_withdraw: Condvar::new(),
            can_thaw: Condvar::new(),
        }
    }

    /// The data, which nobody shares now.
    #[must_use]
    pub fn get_mut(&mut self) -> &mut D {
        &mut self.inner.get_mut().unwrap_or_else(PoisonError::into_inner).data
    }

    /// The data, without the monitor.
    #[must_use]
    pub fn into_inner(self) -> D {
        self.inner.into_inner().unwrap_or_else(PoisonError::into_inner).data
    }

    /// Whether the mutex is poisoned, as where a function panicked that a call was given.
    #[must_use]
    pub fn is_poisoned(&self) -> bool {
        self.inner.is_poisoned()
    }

    /// Waits until `!frozen`.
    ///
    /// # Errors
    ///
    /// [`Overflow`] where a number would leave 64 bits. Then nothing changes.
    pub fn deposit(&self, amount: i64) -> Result<i64, Overflow> {
        let mut inner = lock(&self.inner);
        while !inner.state.can_deposit() {
            inner.asleep_deposit += 1;
            inner = wait(&self.can_deposit, inner);
            inner.asleep_deposit -= 1;
        }
        let Ok(answer) = inner.state.run_deposit(amount) else {
            self.can_deposit.notify_one();
            return Err(Overflow);
        };
        let copy = inner.copy();
        drop(inner);
        if copy.asleep_withdraw > 0 {
            self.can_withdraw.notify_all();
        }
        Ok(answer)
    }

    /// As [`deposit`](Self::deposit), and calls `f` with the data and the answer under the same lock.
    ///
    /// Where `f` panics no field changes. `f` must not call this monitor.
    ///
    /// # Errors
    ///
    /// [`Overflow`] where a number would leave 64 bits. Then nothing changes.
    pub fn deposit_with<R>(&self, amount: i64, f: impl FnOnce(&mut D, i64) -> R) -> Result<R, Overflow> {
        let mut inner = lock(&self.inner);
        while !inner.state.can_deposit() {
            inner.asleep_deposit += 1;
            inner = wait(&self.can_deposit, inner);
            inner.asleep_deposit -= 1;
        }
        let hand = HandOn(&self.can_deposit);
        let mut next = inner.state;
        let answer = next.run_deposit(amount)?;
        let result = f(&mut inner.data, answer);
        std::mem::forget(hand);
        inner.state = next;
        let copy = inner.copy();
        drop(inner);
        if copy.asleep_withdraw > 0 {
            self.can_withdraw.notify_all();
        }
        Ok(result)
    }

    /// As [`deposit`](Self::deposit), but does not wait until `!frozen`.
    ///
    /// # Errors
    ///
    /// [`Failed::Refused`] where `!frozen` is false. Then nothing changes.
    ///
    /// [`Failed::Overflow`] where a number would leave 64 bits. Then nothing changes.
    pub fn try_deposit(&self, amount: i64) -> Result<i64, Failed> {
        let mut inner = lock(&self.inner);
        if !inner.state.can_deposit() {
            return Err(Failed::Refused);
        }
        let Ok(answer) = inner.state.run_deposit(amount) else {
            self.can_deposit.notify_one();
            return Err(Failed::Overflow);
        };
        let copy = inner.copy();
        drop(inner);
        if copy.asleep_withdraw > 0 {
            self.can_withdraw.notify_all();
        }
        Ok(answer)
    }

    /// As [`try_deposit`](Self::try_deposit), and calls `f` with the data and the answer under the same lock.
    ///
    /// Where `f` panics no field changes. `f` must not call this monitor.
    ///
    /// # Errors
    ///
    /// [`Failed::Refused`] where `!frozen` is false. Then nothing changes.
    ///
    /// [`Failed::Overflow`] where a number would leave 64 bits. Then nothing changes.
    pub fn try_deposit_with<R>(&self, amount: i64, f: impl FnOnce(&mut D, i64) -> R) -> Result<R, Failed> {
        let mut inner = lock(&self.inner);
        if !inner.state.can_deposit() {
            return Err(Failed::Refused);
        }
        let hand = HandOn(&self.can_deposit);
        let mut next = inner.state;
        let answer = next.run_deposit(amount)?;
        let result = f(&mut inner.data, answer);
        std::mem::forget(hand);
        inner.state = next;
        let copy = inner.copy();
        drop(inner);
        if copy.asleep_withdraw > 0 {
            self.can_withdraw.notify_all();
        }
        Ok(result)
    }

    /// As [`deposit`](Self::deposit), but waits for `!frozen` no longer than until `end`.
    ///
    /// # Errors
    ///
    /// [`Failed::Refused`] where its time is over and `!frozen` is false. Then nothing changes.
    ///
    /// [`Failed::Overflow`] where a number would leave 64 bits. Then nothing changes.
    pub fn deposit_until(&self, amount: i64, end: Instant) -> Result<i64, Failed> {
        let mut inner = lock(&self.inner);
        while !inner.state.can_deposit() {
            let Some(left) = time_left(end) else {
                return Err(Failed::Refused);
            };
            inner.asleep_deposit += 1;
            inner = wait_for(&self.can_deposit, inner, left);
            inner.asleep_deposit -= 1;
        }
        let Ok(answer) = inner.state.run_deposit(amount) else {
            self.can_deposit.notify_one();
            return Err(Failed::Overflow);
        };
        let copy = inner.copy();
        drop(inner);
        if copy.asleep_withdraw > 0 {
            self.can_withdraw.notify_all();
        }
        Ok(answer)
    }

    /// As [`deposit_until`](Self::deposit_until), and calls `f` with the data and the answer under the same lock.
    ///
    /// Where `f` panics no field changes. `f` must not call this monitor.
    ///
    /// # Errors
    ///
    /// [`Failed::Refused`] where its time is over and `!frozen` is false. Then nothing changes.
    ///
    /// [`Failed::Overflow`] where a number would leave 64 bits. Then nothing changes.
    pub fn deposit_until_with<R>(&self, amount: i64, end: Instant, f: impl FnOnce(&mut D, i64) -> R) -> Result<R, Failed> {
        let mut inner = lock(&self.inner);
        while !inner.state.can_deposit() {
            let Some(left) = time_left(end) else {
                return Err(Failed::Refused);
            };
            inner.asleep_deposit += 1;
            inner = wait_for(&self.can_deposit, inner, left);
            inner.asleep_deposit -= 1;
        }
        let hand = HandOn(&self.can_deposit);
        let mut next = inner.state;
        let answer = next.run_deposit(amount)?;
        let result = f(&mut inner.data, answer);
        std::mem::forget(hand);
        inner.state = next;
        let copy = inner.copy();
        drop(inner);
        if copy.asleep_withdraw > 0 {
            self.can_withdraw.notify_all();
        }
        Ok(result)
    }

    /// As [`deposit`](Self::deposit), but waits for `!frozen` no longer than `time`.
    ///
    /// # Errors
    ///
    /// [`Failed::Refused`] where its time is over and `!frozen` is false. Then nothing changes.
    ///
    /// [`Failed::Overflow`] where a number would leave 64 bits. Then nothing changes.
    pub fn deposit_for(&self, amount: i64, time: Duration) -> Result<i64, Failed> {
        let Some(end) = Instant::now().checked_add(time) else {
            return Ok(self.deposit(amount)?);
        };
        self.deposit_until(amount, end)
    }

    /// As [`deposit_for`](Self::deposit_for), and calls `f` with the data and the answer under the same lock.
    ///
    /// Where `f` panics no field changes. `f` must not call this monitor.
    ///
    /// # Errors
    ///
    /// [`Failed::Refused`] where its time is over and `!frozen` is false. Then nothing changes.
    ///
    /// [`Failed::Overflow`] where a number would leave 64 bits. Then nothing changes.
    pub fn deposit_for_with<R>(&self, amount: i64, time: Duration, f: impl FnOnce(&mut D, i64) -> R) -> Result<R, Failed> {
        let Some(end) = Instant::now().checked_add(time) else {
            return Ok(self.deposit_with(amount, f)?);
        };
        self.deposit_until_with(amount, end, f)
    }

    /// Waits until `amount <= balance && !frozen`.
    ///
    /// # Errors
    ///
    /// [`Overflow`] where a number would leave 64 bits. Then nothing changes.
    pub fn withdraw(&self, amount: i64) -> Result<i64, Overflow> {
        let mut inner = lock(&self.inner);
        while !inner.state.can_withdraw(amount) {
            inner.asleep_withdraw += 1;
            inner = wait(&self.can_withdraw, inner);
            inner.asleep_withdraw -= 1;
        }
        let Ok(answer) = inner.state.run_withdraw(amount) else {
            self.can_withdraw.notify_one();
            return Err(Overflow);
        };
        let copy = inner.copy();
        drop(inner);
        if copy.asleep_withdraw > 0 {
            self.can_withdraw.notify_all();
        }
        if copy.asleep_thaw > 0 && copy.state.can_thaw() {
            self.can_thaw.notify_one();
        }
        Ok(answer)
    }

    /// As [`withdraw`](Self::withdraw), and calls `f` with the data and the answer under the same lock.
    ///
    /// Where `f` panics no field changes. `f` must not call this monitor.
    ///
    /// # Errors
    ///
    /// [`Overflow`] where a number would leave 64 bits. Then nothing changes.
    pub fn withdraw_with<R>(&self, amount: i64, f: impl FnOnce(&mut D, i64) -> R) -> Result<R, Overflow> {
        let mut inner = lock(&self.inner);
        while !inner.state.can_withdraw(amount) {
            inner.asleep_withdraw += 1;
            inner = wait(&self.can_withdraw, inner);
            inner.asleep_withdraw -= 1;
        }
        let hand = HandOn(&self.can_withdraw);
        let mut next = inner.state;
        let answer = next.run_withdraw(amount)?;
        let result = f(&mut inner.data, answer);
        std::mem::forget(hand);
        inner.state = next;
        let copy = inner.copy();
        drop(inner);
        if copy.asleep_withdraw > 0 {
            self.can_withdraw.notify_all();
        }
        if copy.asleep_thaw > 0 && copy.state.can_thaw() {
            self.can_thaw.notify_one();
        }
        Ok(result)
    }

    /// As [`withdraw`](Self::withdraw), but does not wait until `amount <= balance && !frozen`.
    ///
    /// # Errors
    ///
    /// [`Failed::Refused`] where `amount <= balance && !frozen` is false. Then nothing changes.
    ///
    /// [`Failed::Overflow`] where a number would leave 64 bits. Then nothing changes.
    pub fn try_withdraw(&self, amount: i64) -> Result<i64, Failed> {
        let mut inner = lock(&self.inner);
        if !inner.state.can_withdraw(amount) {
            return Err(Failed::Refused);
        }
        let Ok(answer) = inner.state.run_withdraw(amount) else {
            self.can_withdraw.notify_one();
            return Err(Failed::Overflow);
        };
        let copy = inner.copy();
        drop(inner);
        if copy.asleep_withdraw > 0 {
            self.can_withdraw.notify_all();
        }
        if copy.asleep_thaw > 0 && copy.state.can_thaw() {
            self.can_thaw.notify_one();
        }
        Ok(answer)
    }

    /// As [`try_withdraw`](Self::try_withdraw), and calls `f` with the data and the answer under the same lock.
    ///
    /// Where `f` panics no field changes. `f` must not call this monitor.
    ///
    /// # Errors
    ///
    /// [`Failed::Refused`] where `amount <= balance && !frozen` is false. Then nothing changes.
    ///
    /// [`Failed::Overflow`] where a number would leave 64 bits. Then nothing changes.
    pub fn try_withdraw_with<R>(&self, amount: i64, f: impl FnOnce(&mut D, i64) -> R) -> Result<R, Failed> {
        let mut inner = lock(&self.inner);
        if !inner.state.can_withdraw(amount) {
            return Err(Failed::Refused);
        }
        let hand = HandOn(&self.can_withdraw);
        let mut next = inner.state;
        let answer = next.run_withdraw(amount)?;
        let result = f(&mut inner.data, answer);
        std::mem::forget(hand);
        inner.state = next;
        let copy = inner.copy();
        drop(inner);
        if copy.asleep_withdraw > 0 {
            self.can_withdraw.notify_all();
        }
        if copy.asleep_thaw > 0 && copy.state.can_thaw() {
            self.can_thaw.notify_one();
        }
        Ok(result)
    }

    /// As [`withdraw`](Self::withdraw), but waits for `amount <= balance && !frozen` no longer than until `end`.
    ///
    /// # Errors
    ///
    /// [`Failed::Refused`] where its time is over and `amount <= balance && !frozen` is false. Then nothing changes.
    ///
    /// [`Failed::Overflow`] where a number would leave 64 bits. Then nothing changes.
    pub fn withdraw_until(&self, amount: i64, end: Instant) -> Result<i64, Failed> {
        let mut inner = lock(&self.inner);
        while !inner.state.can_withdraw(amount) {
            let Some(left) = time_left(end) else {
                return Err(Failed::Refused);
            };
            inner.asleep_withdraw += 1;
            inner = wait_for(&self.can_withdraw, inner, left);
            inner.asleep_withdraw -= 1;
        }
        let Ok(answer) = inner.state.run_withdraw(amount) else {
            self.can_withdraw.notify_one();
            return Err(Failed::Overflow);
        };
        let copy = inner.copy();
        drop(inner);
        if copy.asleep_withdraw > 0 {
            self.can_withdraw.notify_all();
        }
        if copy.asleep_thaw > 0 && copy.state.can_thaw() {
            self.can_thaw.notify_one();
        }
        Ok(answer)
    }

    /// As [`withdraw_until`](Self::withdraw_until), and calls `f` with the data and the answer under the same lock.
    ///
    /// Where `f` panics no field changes. `f` must not call this monitor.
    ///
    /// # Errors
    ///
    /// [`Failed::Refused`] where its time is over and `amount <= balance && !frozen` is false. Then nothing changes.
    ///
    /// [`Failed::Overflow`] where a number would leave 64 bits. Then nothing changes.
    pub fn withdraw_until_with<R>(&self, amount: i64, end: Instant, f: impl FnOnce(&mut D, i64) -> R) -> Result<R, Failed> {
        let mut inner = lock(&self.inner);
        while !inner.state.can_withdraw(amount) {
            let Some(left) = time_left(end) else {
                return Err(Failed::Refused);
            };
            inner.asleep_withdraw += 1;
            inner = wait_for(&self.can_withdraw, inner, left);
            inner.asleep_withdraw -= 1;
        }
        let hand = HandOn(&self.can_withdraw);
        let mut next = inner.state;
        let answer = next.run_withdraw(amount)?;
        let result = f(&mut inner.data, answer);
        std::mem::forget(hand);
        inner.state = next;
        let copy = inner.copy();
        drop(inner);
        if copy.asleep_withdraw > 0 {
            self.can_withdraw.notify_all();
        }
        if copy.asleep_thaw > 0 && copy.state.can_thaw() {
            self.can_thaw.notify_one();
        }
        Ok(result)
    }

    /// As [`withdraw`](Self::withdraw), but waits for `amount <= balance && !frozen` no longer than `time`.
    ///
    /// # Errors
    ///
    /// [`Failed::Refused`] where its time is over and `amount <= balance && !frozen` is false. Then nothing changes.
    ///
    /// [`Failed::Overflow`] where a number would leave 64 bits. Then nothing changes.
    pub fn withdraw_for(&self, amount: i64, time: Duration) -> Result<i64, Failed> {
        let Some(end) = Instant::now().checked_add(time) else {
            return Ok(self.withdraw(amount)?);
        };
        self.withdraw_until(amount, end)
    }

    /// As [`withdraw_for`](Self::withdraw_for), and calls `f` with the data and the answer under the same lock.
    ///
    /// Where `f` panics no field changes. `f` must not call this monitor.
    ///
    /// # Errors
    ///
    /// [`Failed::Refused`] where its time is over and `amount <= balance && !frozen` is false. Then nothing changes.
    ///
    /// [`Failed::Overflow`] where a number would leave 64 bits. Then nothing changes.
    pub fn withdraw_for_with<R>(&self, amount: i64, time: Duration, f: impl FnOnce(&mut D, i64) -> R) -> Result<R, Failed> {
        let Some(end) = Instant::now().checked_add(time) else {
            return Ok(self.withdraw_with(amount, f)?);
        };
        self.withdraw_until_with(amount, end, f)
    }

    /// Waits until `frozen`.
    pub fn thaw(&self) {
        let mut inner = lock(&self.inner);
        while !inner.state.can_thaw() {
            inner.asleep_thaw += 1;
            inner = wait(&self.can_thaw, inner);
            inner.asleep_thaw -= 1;
        }
        inner.state.run_thaw();
        let copy = inner.copy();
        drop(inner);
        if copy.asleep_deposit > 0 {
            self.can_deposit.notify_all();
        }
        if copy.asleep_withdraw > 0 {
            self.can_withdraw.notify_all();
        }
    }

    /// As [`thaw`](Self::thaw), and calls `f` with the data under the same lock.
    ///
    /// Where `f` panics no field changes. `f` must not call this monitor.
    pub fn thaw_with<R>(&self, f: impl FnOnce(&mut D) -> R) -> R {
        let mut inner = lock(&self.inner);
        while !inner.state.can_thaw() {
            inner.asleep_thaw += 1;
            inner = wait(&self.can_thaw, inner);
            inner.asleep_thaw -= 1;
        }
        let hand = HandOn(&self.can_thaw);
        let mut next = inner.state;
        next.run_thaw();
        let result = f(&mut inner.data);
        std::mem::forget(hand);
        inner.state = next;
        let copy = inner.copy();
        drop(inner);
        if copy.asleep_deposit > 0 {
            self.can_deposit.notify_all();
        }
        if copy.asleep_withdraw > 0 {
            self.can_withdraw.notify_all();
        }
        result
    }

    /// As [`thaw`](Self::thaw), but does not wait until `frozen`.
    ///
    /// # Errors
    ///
    /// [`Refused`] where `frozen` is false. Then nothing changes.
    pub fn try_thaw(&self) -> Result<(), Refused> {
        let mut inner = lock(&self.inner);
        if !inner.state.can_thaw() {
            return Err(Refused);
        }
        inner.state.run_thaw();
        let copy = inner.copy();
        drop(inner);
        if copy.asleep_deposit > 0 {
            self.can_deposit.notify_all();
        }
        if copy.asleep_withdraw > 0 {
            self.can_withdraw.notify_all();
        }
        Ok(())
    }

    /// As [`try_thaw`](Self::try_thaw), and calls `f` with the data under the same lock.
    ///
    /// Where `f` panics no field changes. `f` must not call this monitor.
    ///
    /// # Errors
    ///
    /// [`Refused`] where `frozen` is false. Then nothing changes.
    pub fn try_thaw_with<R>(&self, f: impl FnOnce(&mut D) -> R) -> Result<R, Refused> {
        let mut inner = lock(&self.inner);
        if !inner.state.can_thaw() {
            return Err(Refused);
        }
        let hand = HandOn(&self.can_thaw);
        let mut next = inner.state;
        next.run_thaw();
        let result = f(&mut inner.data);
        std::mem::forget(hand);
        inner.state = next;
        let copy = inner.copy();
        drop(inner);
        if copy.asleep_deposit > 0 {
            self.can_deposit.notify_all();
        }
        if copy.asleep_withdraw > 0 {
            self.can_withdraw.notify_all();
        }
        Ok(result)
    }

    /// As [`thaw`](Self::thaw), but waits for `frozen` no longer than until `end`.
    ///
    /// # Errors
    ///
    /// [`Refused`] where its time is over and `frozen` is false. Then nothing changes.
    pub fn thaw_until(&self, end: Instant) -> Result<(), Refused> {
        let mut inner = lock(&self.inner);
        while !inner.state.can_thaw() {
            let Some(left) = time_left(end) else {
                return Err(Refused);
            };
            inner.asleep_thaw += 1;
            inner = wait_for(&self.can_thaw, inner, left);
            inner.asleep_thaw -= 1;
        }
        inner.state.run_thaw();
        let copy = inner.copy();
        drop(inner);
        if copy.asleep_deposit > 0 {
            self.can_deposit.notify_all();
        }
        if copy.asleep_withdraw > 0 {
            self.can_withdraw.notify_all();
        }
        Ok(())
    }

    /// As [`thaw_until`](Self::thaw_until), and calls `f` with the data under the same lock.
    ///
    /// Where `f` panics no field changes. `f` must not call this monitor.
    ///
    /// # Errors
    ///
    /// [`Refused`] where its time is over and `frozen` is false. Then nothing changes.
    pub fn thaw_until_with<R>(&self, end: Instant, f: impl FnOnce(&mut D) -> R) -> Result<R, Refused> {
        let mut inner = lock(&self.inner);
        while !inner.state.can_thaw() {
            let Some(left) = time_left(end) else {
                return Err(Refused);
            };
            inner.asleep_thaw += 1;
            inner = wait_for(&self.can_thaw, inner, left);
            inner.asleep_thaw -= 1;
        }
        let hand = HandOn(&self.can_thaw);
        let mut next = inner.state;
        next.run_thaw();
        let result = f(&mut inner.data);
        std::mem::forget(hand);
        inner.state = next;
        let copy = inner.copy();
        drop(inner);
        if copy.asleep_deposit > 0 {
            self.can_deposit.notify_all();
        }
        if copy.asleep_withdraw > 0 {
            self.can_withdraw.notify_all();
        }
        Ok(result)
    }

    /// As [`thaw`](Self::thaw), but waits for `frozen` no longer than `time`.
    ///
    /// # Errors
    ///
    /// [`Refused`] where its time is over and `frozen` is false. Then nothing changes.
    pub fn thaw_for(&self, time: Duration) -> Result<(), Refused> {
        let Some(end) = Instant::now().checked_add(time) else {
            self.thaw();
            return Ok(());
        };
        self.thaw_until(end)
    }

    /// As [`thaw_for`](Self::thaw_for), and calls `f` with the data under the same lock.
    ///
    /// Where `f` panics no field changes. `f` must not call this monitor.
    ///
    /// # Errors
    ///
    /// [`Refused`] where its time is over and `frozen` is false. Then nothing changes.
    pub fn thaw_for_with<R>(&self, time: Duration, f: impl FnOnce(&mut D) -> R) -> Result<R, Refused> {
        let Some(end) = Instant::now().checked_add(time) else {
            return Ok(self.thaw_with(f));
        };
        self.thaw_until_with(end, f)
    }
}

impl Default for Account {
    fn default() -> Self {
        Self::new()
    }
}

impl<D> std::fmt::Debug for Account<D> {
    fn fmt(&self, f: &mut std::fmt::Formatter<'_>) -> std::fmt::Result {
        let state = match self.inner.try_lock() {
            Ok(inner) => Some(inner.state),
            Err(std::sync::TryLockError::Poisoned(inner)) => Some(inner.into_inner().state),
            Err(std::sync::TryLockError::WouldBlock) => None,
        };
        let mut text = f.debug_struct("Account");
        match state {
            Some(state) => text.field("state", &state),
            None => text.field("state", &format_args!("<locked>")),
        };
        text.finish_non_exhaustive()
    }
}

/// What the mutex guards: the fields, how many calls sleep on each condition, and the data.
#[allow(dead_code)]
struct Inner<D = ()> {
    state: State,
    asleep_deposit: usize,
    asleep_withdraw: usize,
    asleep_thaw: usize,
    data: D,
}

impl<D> Inner<D> {
    /// All but the data.
    #[allow(dead_code)]
    fn copy(&self) -> Inner {
        Inner {
            state: self.state,
            asleep_deposit: self.asleep_deposit,
            asleep_withdraw: self.asleep_withdraw,
            asleep_thaw: self.asleep_thaw,
            data: (),
        }
    }
}

/// The fields of the monitor.
#[derive(Clone, Copy, Debug)]
#[allow(dead_code)]
struct State {
    balance: i64,
    rejected: i64,
    frozen: bool,
}

// The guards and bodies, with expressions as the monitor has them.
#[rustfmt::skip]
#[allow(unused, unused_comparisons, clippy::all, clippy::pedantic)]
impl State {
    const START: Self = Self {
        balance: 0,
        rejected: 0,
        frozen: false,
    };

    fn can_deposit(&self) -> bool {
        !self.frozen
    }

    fn run_deposit(&mut self, amount: i64) -> Result<i64, Overflow> {
        if amount > 0 {
            self.balance = narrow(i128::from(self.balance) + i128::from(amount))?;
        } else {
            self.rejected = narrow(i128::from(self.rejected) + 1)?;
        }
        Ok(self.balance)
    }

    fn can_withdraw(&self, amount: i64) -> bool {
        amount <= self.balance && !self.frozen
    }

    fn run_withdraw(&mut self, amount: i64) -> Result<i64, Overflow> {
        let mut next = *self;
        next.balance = narrow(i128::from(next.balance) - i128::from(amount))?;
        if 2 * i128::from(amount) > i128::from(Account::LIMIT) {
            next.frozen = true;
        }
        let answer = narrow(i128::from(next.balance) - i128::from(Account::LIMIT))?;
        *self = next;
        Ok(answer)
    }

    fn can_thaw(&self) -> bool {
        self.frozen
    }

    fn run_thaw(&mut self) {
        self.frozen = false;
    }
}

/// Locks the monitor, poisoned or not: where a function panicked its block changed no field.
fn lock<D>(inner: &Mutex<Inner<D>>) -> MutexGuard<'_, Inner<D>> {
    inner.lock().unwrap_or_else(PoisonError::into_inner)
}

/// Gives the lock back and waits on the condition, in one step, and takes the lock again.
fn wait<'a, D>(condition: &Condvar, inner: MutexGuard<'a, Inner<D>>) -> MutexGuard<'a, Inner<D>> {
    condition
        .wait(inner)
        .unwrap_or_else(PoisonError::into_inner)
}

/// Wakes one call that waits on the condition, where a block ends that changed nothing.
#[allow(dead_code)]
struct HandOn<'a>(&'a Condvar);

impl Drop for HandOn<'_> {
    fn drop(&mut self) {
        self.0.notify_one();
    }
}

/// As `wait`, but no longer than this.
fn wait_for<'a, D>(
    condition: &Condvar,
    inner: MutexGuard<'a, Inner<D>>,
    left: Duration,
) -> MutexGuard<'a, Inner<D>> {
    condition
        .wait_timeout(inner, left)
        .unwrap_or_else(PoisonError::into_inner)
        .0
}

/// How long it is until then, or `None` where it has come.
fn time_left(end: Instant) -> Option<Duration> {
    end.checked_duration_since(Instant::now())
        .filter(|left| !left.is_zero())
}

/// A number would have left 64 bits.
#[derive(Clone, Copy, Debug, PartialEq, Eq)]
pub struct Overflow;

impl std::fmt::Display for Overflow {
    fn fmt(&self, f: &mut std::fmt::Formatter<'_>) -> std::fmt::Result {
        f.write_str("a number would leave 64 bits")
    }
}

impl std::error::Error for Overflow {}

/// The number, where it has 64 bits.
fn narrow(number: i128) -> Result<i64, Overflow> {
    i64::try_from(number).map_err(|_| Overflow)
}

/// The guard was false, and the call did not wait, or not any longer. Nothing changed.
#[derive(Clone, Copy, Debug, PartialEq, Eq)]
pub struct Refused;

impl std::fmt::Display for Refused {
    fn fmt(&self, f: &mut std::fmt::Formatter<'_>) -> std::fmt::Result {
        f.write_str("the guard is false")
    }
}

impl std::error::Error for Refused {}

/// Why a call that tries, or has a time, has no answer.
#[derive(Clone, Copy, Debug, PartialEq, Eq)]
pub enum Failed {
    /// The guard was false, and the call did not wait, or not any longer. Nothing changed.
    Refused,
    /// A number would have left 64 bits.
    Overflow,
}

impl From<Overflow> for Failed {
    fn from(_: Overflow) -> Self {
        Self::Overflow
    }
}

impl std::fmt::Display for Failed {
    fn fmt(&self, f: &mut std::fmt::Formatter<'_>) -> std::fmt::Result {
        f.write_str(match self {
            Self::Refused => "the guard is false",
            Self::Overflow => "a number would leave 64 bits",
        })
    }
}

impl std::error::Error for Failed {}
