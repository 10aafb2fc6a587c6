use std::borrow::Borrow;
use std::collections::HashMap;
use std::hash::Hash;
use std::sync::RwLock;

use crate::guards::{into_inner, ReadGuard, WriteGuard};
use crate::map_gate::MapGate;

/// A map that threads share by reference.
///
/// Where a writer panics, the map is as it left it, and others go on.
#[derive(Debug)]
pub struct Cache<K, V> {
    gate: MapGate,
    map: RwLock<HashMap<K, V>>,
}

impl<K, V> Cache<K, V> {
    /// An empty cache.
    #[must_use]
    pub fn new() -> Self {
        Self::from(HashMap::new())
    }

    /// Leave to read, together with other readers. Waits while somebody writes or waits to write.
    ///
    /// A thread that has such leave and asks again may wait for ever, as a writer may have come.
    pub fn read(&self) -> ReadGuard<'_, K, V> {
        ReadGuard::wait(&self.gate, &self.map)
    }

    /// Leave to read, or `None` where somebody writes or waits to write.
    pub fn try_read(&self) -> Option<ReadGuard<'_, K, V>> {
        ReadGuard::try_now(&self.gate, &self.map)
    }

    /// Leave to write, alone. Waits until every reader and every writer before has left.
    pub fn write(&self) -> WriteGuard<'_, K, V> {
        WriteGuard::wait(&self.gate, &self.map)
    }

    /// The map itself, which no thread shares any more.
    #[must_use]
    pub fn into_inner(self) -> HashMap<K, V> {
        into_inner(self.map)
    }
}

impl<K: Eq + Hash, V: Clone> Cache<K, V> {
    /// A copy of the value of this key.
    pub fn get<Q>(&self, key: &Q) -> Option<V>
    where
        K: Borrow<Q>,
        Q: Eq + Hash + ?Sized,
    {
        self.read().get(key).cloned()
    }

    /// A copy of the value of this key, which is made where there is none yet, once.
    ///
    /// It is made under the leave to write, so that no other thread makes it too.
    pub fn get_or_make(&self, key: K, make: impl FnOnce(&K) -> V) -> V {
        if let Some(value) = self.get(&key) {
            return value;
        }
        let mut map = self.write();
        // Another thread may have made it while this one waited.
        if let Some(value) = map.get(&key) {
            return value.clone();
        }
        let value = make(&key);
        map.insert(key, value.clone());
        value
    }
}

impl<K: Eq + Hash, V> Cache<K, V> {
    /// Sets the value of this key, and answers the one before.
    pub fn insert(&self, key: K, value: V) -> Option<V> {
        self.write().insert(key, value)
    }
}

impl<K, V> Default for Cache<K, V> {
    fn default() -> Self {
        Self::new()
    }
}

impl<K, V> From<HashMap<K, V>> for Cache<K, V> {
    fn from(map: HashMap<K, V>) -> Self {
        Self {
            gate: MapGate::new(),
            map: RwLock::new(map),
        }
    }
}
