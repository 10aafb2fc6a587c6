"""Texts that are the same in every module of a monitor in Rust."""

import manual

VERSION = manual.version()

HEAD = """\
// The monitor `%s` as a module of Rust, made by `expresso emit` %s.
// Change the monitor, and not this file. It wants Rust 1.65 and the edition 2021, or later ones.

"""

SKIP = "#[rustfmt::skip]\n#[allow(dead_code, clippy::doc_markdown, clippy::style)]\n"
METHODS = ("#[rustfmt::skip]\n#[allow(dead_code, non_snake_case)]\n"
           "#[allow(clippy::doc_markdown, clippy::style, clippy::too_many_arguments)]\n")

USED = """\
#[allow(dead_code, non_camel_case_types)]
#[allow(clippy::doc_markdown, clippy::upper_case_acronyms)]
"""

NEW = """\
    /// The monitor at its start.
    #[must_use]
    pub const fn new() -> Self {
        Self::with_data(())
    }
}

"""

WITH_DATA = """\
    /// The monitor at its start, with these data.
    #[must_use]
    pub const fn with_data(data: D) -> Self {
        Self {
            inner: Mutex::new(Inner {
                state: State::START,
"""

ADMITS = """\
    /// Whether the monitor may have these parameters: whether `%s`.
    #[must_use]
    #[allow(unused_comparisons, clippy::all, clippy::pedantic)]
    pub const fn admits(%s) -> bool {
        %s
    }

"""

CHOICE = """\
%s    ///
    /// # Panics
    ///
    /// Where `%s` is false: then a `const` or a `static` does not compile.
    #[must_use]
    #[track_caller]
    #[allow(clippy::similar_names, clippy::too_many_arguments)]
"""

CHOSEN_NEW = """\
    /// The monitor at its start.
%s    pub const fn new(%s) -> Self {
        Self::with_data(%s, ())
    }
}

"""

CHOSEN_DATA = """\
    /// The monitor at its start, with these data.
%s    pub const fn with_data(%s, data: D) -> Self {
        assert!(%s::admits(%s), "%s wants %s");
        Self {
            inner: Mutex::new(Inner {
                state: State::start(%s),
"""

DATA = """\
    /// The data, which nobody shares now.
    #[must_use]
    pub fn get_mut(&mut self) -> &mut D {
        &mut self.inner.get_mut().unwrap_or_else(PoisonError::into_inner).data
    }

    /// The data, without the monitor.
    #[must_use]
    pub fn into_inner(self) -> D {
        self.inner.into_inner().unwrap_or_else(PoisonError::into_inner).data
    }

    /// Whether the mutex is poisoned, as where a function panicked that a call was given.
    #[must_use]
    pub fn is_poisoned(&self) -> bool {
        self.inner.is_poisoned()
    }
"""

DEFAULT = """\
 {
    fn default() -> Self {
        Self::new()
    }
}

"""

DEBUG = """\
 {
    fn fmt(&self, f: &mut std::fmt::Formatter<'_>) -> std::fmt::Result {
        let state = match self.inner.try_lock() {
            Ok(inner) => Some(inner.state),
            Err(std::sync::TryLockError::Poisoned(inner)) => Some(inner.into_inner().state),
            Err(std::sync::TryLockError::WouldBlock) => None,
        };
        let mut text = f.debug_struct("%s");
        match state {
            Some(state) => text.field("state", &state),
            None => text.field("state", &format_args!("<locked>")),
        };
        text.finish_non_exhaustive()
    }
}

"""

COPY = """\
    /// All but the data.
    #[allow(dead_code)]
    fn copy(&self) -> Inner {
        Inner {
            state: self.state,
"""

INNER = """\
/// What the mutex guards: the fields, how many calls sleep on each condition, and the data.
#[allow(dead_code)]
"""

FIELDS = """\
/// The fields of the monitor.
#[derive(Clone, Copy, Debug)]
#[allow(dead_code)]
"""

STATE = """\
// The guards and bodies, with expressions as the monitor has them.
#[rustfmt::skip]
#[allow(unused, unused_comparisons, clippy::all, clippy::pedantic)]
"""

START = """\
    const START: Self = Self {%s};
"""

CHOSEN_START = """\
    const fn start(%s) -> Self {
        Self {%s}
    }
"""

LOCK = """
/// Locks the monitor, poisoned or not: where a function panicked its block changed no field.
fn lock<D>(inner: &Mutex<Inner<D>>) -> MutexGuard<'_, Inner<D>> {
    inner.lock().unwrap_or_else(PoisonError::into_inner)
}
"""

WAIT = """
/// Gives the lock back and waits on the condition, in one step, and takes the lock again.
fn wait<'a, D>(condition: &Condvar, inner: MutexGuard<'a, Inner<D>>) -> MutexGuard<'a, Inner<D>> {
    condition
        .wait(inner)
        .unwrap_or_else(PoisonError::into_inner)
}

/// Wakes one call that waits on the condition, where a block ends that changed nothing.
#[allow(dead_code)]
struct HandOn<'a>(&'a Condvar);

impl Drop for HandOn<'_> {
    fn drop(&mut self) {
        self.0.notify_one();
    }
}
"""

TIMES = """
/// As `wait`, but no longer than this.
fn wait_for<'a, D>(
    condition: &Condvar,
    inner: MutexGuard<'a, Inner<D>>,
    left: Duration,
) -> MutexGuard<'a, Inner<D>> {
    condition
        .wait_timeout(inner, left)
        .unwrap_or_else(PoisonError::into_inner)
        .0
}

/// How long it is until then, or `None` where it has come.
fn time_left(end: Instant) -> Option<Duration> {
    end.checked_duration_since(Instant::now())
        .filter(|left| !left.is_zero())
}
"""

OVERFLOW = """
/// A number would have left 64 bits.
#[derive(Clone, Copy, Debug, PartialEq, Eq)]
pub struct Overflow;

impl std::fmt::Display for Overflow {
    fn fmt(&self, f: &mut std::fmt::Formatter<'_>) -> std::fmt::Result {
        f.write_str("a number would leave 64 bits")
    }
}

impl std::error::Error for Overflow {}

/// The number, where it has 64 bits.
fn narrow(number: i128) -> Result<i64, Overflow> {
    i64::try_from(number).map_err(|_| Overflow)
}
"""

REFUSED = """
/// The guard was false, and the call did not wait, or not any longer. Nothing changed.
#[derive(Clone, Copy, Debug, PartialEq, Eq)]
pub struct Refused;

impl std::fmt::Display for Refused {
    fn fmt(&self, f: &mut std::fmt::Formatter<'_>) -> std::fmt::Result {
        f.write_str("the guard is false")
    }
}

impl std::error::Error for Refused {}
"""

FAILED = """
/// Why a call that tries, or has a time, has no answer.
#[derive(Clone, Copy, Debug, PartialEq, Eq)]
pub enum Failed {
    /// The guard was false, and the call did not wait, or not any longer. Nothing changed.
    Refused,
    /// A number would have left 64 bits.
    Overflow,
}

impl From<Overflow> for Failed {
    fn from(_: Overflow) -> Self {
        Self::Overflow
    }
}

impl std::fmt::Display for Failed {
    fn fmt(&self, f: &mut std::fmt::Formatter<'_>) -> std::fmt::Result {
        f.write_str(match self {
            Self::Refused => "the guard is false",
            Self::Overflow => "a number would leave 64 bits",
        })
    }
}

impl std::error::Error for Failed {}
"""

WHOLE = """
/// The number, of which it is proved that it has 64 bits.
#[allow(clippy::cast_possible_truncation)]
fn whole(number: i128) -> i64 {
    number as i64
}
"""
