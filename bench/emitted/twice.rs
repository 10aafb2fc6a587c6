// The monitor `Twice` as a module of Rust, made by `expresso emit` 0.2.0.
// Change the monitor, and not this file. It wants Rust 1.65 and the edition 2021, or later ones.

use std::sync::{Condvar, Mutex, MutexGuard, PoisonError};

/// The monitor `Twice`. Threads share it by reference. A call waits for its guard, unless it tries.
///
/// Its lock guards data `D` too, for the functions that calls are given.
/**
# Plan

```text
plan Twice
keep level >= 0
condition 1 broadcast: true
condition 2 broadcast: level > seen + 1
block pair.1: 2 broadcast
block pair.2: none
```
*/
#[allow(dead_code, non_camel_case_types)]
#[allow(clippy::doc_markdown, clippy::upper_case_acronyms)]
pub struct Twice<D = ()> {
    inner: Mutex<Inner<D>>,
    /// For calls that wait until `level > seen + 1`.
    can2_pair: Condvar,
}

#[rustfmt::skip]
#[allow(dead_code, clippy::doc_markdown, clippy::style)]
impl Twice {
    /// The monitor at its start.
    #[must_use]
    pub const fn new() -> Self {
        Self::with_data(())
    }
}

#[rustfmt::skip]
#[allow(dead_code, non_snake_case)]
#[allow(clippy::doc_markdown, clippy::style, clippy::too_many_arguments)]
impl<D> Twice<D> {
    /// The monitor at its start, with these data.
    #[must_use]
    pub const fn with_data(data: D) -> Self {
        Self {
            inner: Mutex::new(Inner {
                state: State::START,
                asleep2_pair: 0,
                data,
            }),
            can2_pair: Condvar::new(),
        }
    }

    /// The data, which nobody shares now.
    #[must_use]
    pub fn get_mut(&mut self) -> &mut D {
        &mut self.inner.get_mut().unwrap_or_else(PoisonError::into_inner).data
    }

    /// The data, without the monitor.
    #[must_use]
    pub fn into_inner(self) -> D {
        self.inner.into_inner().unwrap_or_else(PoisonError::into_inner).data
    }

    /// Whether the mutex is poisoned, as where a function panicked that a call was given.
    #[must_use]
    pub fn is_poisoned(&self) -> bool {
        self.inner.is_poisoned()
    }

    /// Does not wait.
    ///
    /// Then waits until `level > seen + 1`.
    ///
    /// # Errors
    ///
    /// [`Overflow`] where a number would leave 64 bits. Its block then changes nothing, and no later one runs.
    pub fn pair(&self) -> Result<i64, Overflow> {
        let mut seen: i64 = 0;
        let mut inner = lock(&self.inner);
        inner.state.run_pair(&mut seen)?;
        let copy = inner.copy();
        drop(inner);
        if copy.asleep2_pair > 0 {
            self.can2_pair.notify_all();
        }
        let mut inner = lock(&self.inner);
        while !inner.state.can2_pair(seen) {
            inner.asleep2_pair += 1;
            inner = wait(&self.can2_pair, inner);
            inner.asleep2_pair -= 1;
        }
        let answer = inner.state.run2_pair(&mut seen);
        drop(inner);
        Ok(answer)
    }

    /// As [`pair`](Self::pair), and calls `f` with the data and the answer under the same lock, in its last block.
    ///
    /// Where `f` panics that block changes no field. `f` must not call this monitor.
    ///
    /// # Errors
    ///
    /// [`Overflow`] where a number would leave 64 bits. Its block then changes nothing, and no later one runs.
    pub fn pair_with<R>(&self, f: impl FnOnce(&mut D, i64) -> R) -> Result<R, Overflow> {
        let mut seen: i64 = 0;
        let mut inner = lock(&self.inner);
        inner.state.run_pair(&mut seen)?;
        let copy = inner.copy();
        drop(inner);
        if copy.asleep2_pair > 0 {
            self.can2_pair.notify_all();
        }
        let mut inner = lock(&self.inner);
        while !inner.state.can2_pair(seen) {
            inner.asleep2_pair += 1;
            inner = wait(&self.can2_pair, inner);
            inner.asleep2_pair -= 1;
        }
        let hand = HandOn(&self.can2_pair);
        let mut next = inner.state;
        let answer = next.run2_pair(&mut seen);
        let result = f(&mut inner.data, answer);
        std::mem::forget(hand);
        inner.state = next;
        drop(inner);
        Ok(result)
    }
}

impl Default for Twice {
    fn default() -> Self {
        Self::new()
    }
}

impl<D> std::fmt::Debug for Twice<D> {
    fn fmt(&self, f: &mut std::fmt::Formatter<'_>) -> std::fmt::Result {
        let state = match self.inner.try_lock() {
            Ok(inner) => Some(inner.state),
            Err(std::sync::TryLockError::Poisoned(inner)) => Some(inner.into_inner().state),
            Err(std::sync::TryLockError::WouldBlock) => None,
        };
        let mut text = f.debug_struct("Twice");
        match state {
            Some(state) => text.field("state", &state),
            None => text.field("state", &format_args!("<locked>")),
        };
        text.finish_non_exhaustive()
    }
}

/// What the mutex guards: the fields, how many calls sleep on each condition, and the data.
#[allow(dead_code)]
struct Inner<D = ()> {
    state: State,
    asleep2_pair: usize,
    data: D,
}

impl<D> Inner<D> {
    /// All but the data.
    #[allow(dead_code)]
    fn copy(&self) -> Inner {
        Inner {
            state: self.state,
            asleep2_pair: self.asleep2_pair,
            data: (),
        }
    }
}

/// The fields of the monitor.
#[derive(Clone, Copy, Debug)]
#[allow(dead_code)]
struct State {
    level: i64,
}

// The guards and bodies, with expressions as the monitor has them.
#[rustfmt::skip]
#[allow(unused, unused_comparisons, clippy::all, clippy::pedantic)]
impl State {
    const START: Self = Self {
        level: 0,
    };

    fn run_pair(&mut self, seen: &mut i64) -> Result<(), Overflow> {
        *seen = self.level;
        self.level = narrow(i128::from(self.level) + 1)?;
        Ok(())
    }

    fn can2_pair(&self, seen: i64) -> bool {
        i128::from(self.level) > i128::from(seen) + 1
    }

    fn run2_pair(&mut self, seen: &mut i64) -> i64 {
        *seen
    }
}

/// Locks the monitor, poisoned or not: where a function panicked its block changed no field.
fn lock<D>(inner: &Mutex<Inner<D>>) -> MutexGuard<'_, Inner<D>> {
    inner.lock().unwrap_or_else(PoisonError::into_inner)
}

/// Gives the lock back and waits on the condition, in one step, and takes the lock again.
fn wait<'a, D>(condition: &Condvar, inner: MutexGuard<'a, Inner<D>>) -> MutexGuard<'a, Inner<D>> {
    condition
        .wait(inner)
        .unwrap_or_else(PoisonError::into_inner)
}

/// Wakes one call that waits on the condition, where a block ends that changed nothing.
#[allow(dead_code)]
struct HandOn<'a>(&'a Condvar);

impl Drop for HandOn<'_> {
    fn drop(&mut self) {
        self.0.notify_one();
    }
}

/// A number would have left 64 bits.
#[derive(Clone, Copy, Debug, PartialEq, Eq)]
pub struct Overflow;

impl std::fmt::Display for Overflow {
    fn fmt(&self, f: &mut std::fmt::Formatter<'_>) -> std::fmt::Result {
        f.write_str("a number would leave 64 bits")
    }
}

impl std::error::Error for Overflow {}

/// The number, where it has 64 bits.
fn narrow(number: i128) -> Result<i64, Overflow> {
    i64::try_from(number).map_err(|_| Overflow)
}
