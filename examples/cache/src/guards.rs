use std::collections::HashMap;
use std::ops::{Deref, DerefMut};
use std::sync::{PoisonError, RwLock, RwLockReadGuard, RwLockWriteGuard, TryLockError};

use crate::map_gate::{Failed, MapGate};

/// Why a call of the gate can't fail: it counts threads.
const SMALL: &str = "there are fewer than 2^63 threads";

/// Why the end of a leave is not refused: it is dropped once.
const STARTED: &str = "who has a leave has started";

/// Leave to read the map, until it is dropped, which nobody can do twice:
///
/// ```compile_fail,E0382
/// let cache = cache::Cache::<u32, u32>::new();
/// let map = cache.read();
/// drop(map);
/// drop(map);
/// ```
#[must_use]
#[derive(Debug)]
pub struct ReadGuard<'a, K, V> {
    // Fields are dropped in this order: the map is given back before the leave.
    map: RwLockReadGuard<'a, HashMap<K, V>>,
    _leave: ReadLeave<'a>,
}

/// Leave to write the map, until it is dropped, as a [`ReadGuard`].
#[must_use]
#[derive(Debug)]
pub struct WriteGuard<'a, K, V> {
    // Fields are dropped in this order: the map is given back before the leave.
    map: RwLockWriteGuard<'a, HashMap<K, V>>,
    _leave: WriteLeave<'a>,
}

#[derive(Debug)]
struct ReadLeave<'a>(&'a MapGate);

#[derive(Debug)]
struct WriteLeave<'a>(&'a MapGate);

impl<'a, K, V> ReadGuard<'a, K, V> {
    /// Waits until nobody writes or waits to write.
    pub(crate) fn wait(gate: &'a MapGate, map: &'a RwLock<HashMap<K, V>>) -> Self {
        gate.start_read().expect(SMALL);
        Self::within(ReadLeave(gate), map)
    }

    /// `None` where somebody writes or waits to write.
    pub(crate) fn try_now(gate: &'a MapGate, map: &'a RwLock<HashMap<K, V>>) -> Option<Self> {
        match gate.try_start_read() {
            Ok(()) => Some(Self::within(ReadLeave(gate), map)),
            Err(Failed::Refused) => None,
            Err(Failed::Overflow) => panic!("{SMALL}"),
        }
    }

    fn within(leave: ReadLeave<'a>, map: &'a RwLock<HashMap<K, V>>) -> Self {
        let map = match map.try_read() {
            Ok(map) => map,
            Err(TryLockError::Poisoned(poison)) => poison.into_inner(),
            Err(TryLockError::WouldBlock) => unreachable!("nobody writes while one may read"),
        };
        Self { map, _leave: leave }
    }
}

impl<'a, K, V> WriteGuard<'a, K, V> {
    /// Waits until nobody else is in.
    pub(crate) fn wait(gate: &'a MapGate, map: &'a RwLock<HashMap<K, V>>) -> Self {
        gate.start_write().expect(SMALL);
        let leave = WriteLeave(gate);
        let map = match map.try_write() {
            Ok(map) => map,
            Err(TryLockError::Poisoned(poison)) => poison.into_inner(),
            Err(TryLockError::WouldBlock) => unreachable!("nobody is in while one may write"),
        };
        Self { map, _leave: leave }
    }
}

// An end asserts that somebody has started, so it never waits: neither does a drop, not even while
// a panic goes on. It is not refused, as a leave is made by a start alone, and can't be copied.

impl Drop for ReadLeave<'_> {
    fn drop(&mut self) {
        let ended = self.0.end_read();
        debug_assert_eq!(ended, Ok(()), "{STARTED}");
    }
}

impl Drop for WriteLeave<'_> {
    fn drop(&mut self) {
        let ended = self.0.end_write();
        debug_assert_eq!(ended, Ok(()), "{STARTED}");
    }
}

impl<K, V> Deref for ReadGuard<'_, K, V> {
    type Target = HashMap<K, V>;

    fn deref(&self) -> &Self::Target {
        &self.map
    }
}

impl<K, V> Deref for WriteGuard<'_, K, V> {
    type Target = HashMap<K, V>;

    fn deref(&self) -> &Self::Target {
        &self.map
    }
}

impl<K, V> DerefMut for WriteGuard<'_, K, V> {
    fn deref_mut(&mut self) -> &mut Self::Target {
        &mut self.map
    }
}

/// The map of a gate that nobody can use any more.
pub(crate) fn into_inner<K, V>(map: RwLock<HashMap<K, V>>) -> HashMap<K, V> {
    map.into_inner().unwrap_or_else(PoisonError::into_inner)
}

#[cfg(test)]
mod tests {
    use super::{ReadLeave, WriteLeave};
    use crate::map_gate::{MapGate, Refused};

    /// The fields of a gate that nobody has locked.
    fn state(gate: &MapGate) -> String {
        format!("{gate:?}")
    }

    #[test]
    fn an_end_without_a_start_is_refused_and_changes_nothing() {
        let gate = MapGate::new();
        let before = state(&gate);
        assert_eq!(gate.end_read(), Err(Refused));
        assert_eq!(gate.end_write(), Err(Refused));
        assert_eq!(state(&gate), before);
    }

    #[test]
    fn a_reader_ends_no_write_and_a_writer_no_read() {
        let gate = MapGate::new();
        gate.start_read().unwrap();
        assert_eq!(gate.end_write(), Err(Refused));
        drop(ReadLeave(&gate));
        gate.start_write().unwrap();
        assert_eq!(gate.end_read(), Err(Refused));
        drop(WriteLeave(&gate));
        assert_eq!(state(&gate), state(&MapGate::new()));
    }

    #[test]
    fn a_leave_gives_back_what_one_start_took() {
        let gate = MapGate::new();
        gate.start_read().unwrap();
        gate.start_read().unwrap();
        drop(ReadLeave(&gate));
        assert_eq!(gate.end_read(), Ok(()));
        assert_eq!(gate.end_read(), Err(Refused));
    }
}
