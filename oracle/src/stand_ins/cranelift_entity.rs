//! `cranelift_entity`: tables and sets keyed by numbered things.

use std::{
    collections::BTreeSet,
    marker::PhantomData,
    ops::{Index, IndexMut},
};

/// A thing that is known by its number.
pub trait EntityRef: Copy + Ord {
    fn new(number: usize) -> Self;
    fn index(self) -> usize;
}

/// The things themselves, numbered as they come.
pub struct PrimaryMap<K: EntityRef, V> {
    values: Vec<V>,
    keys: PhantomData<K>,
}

impl<K: EntityRef, V> PrimaryMap<K, V> {
    pub fn iter(&self) -> impl Iterator<Item = (K, &V)> {
        self.values.iter().enumerate().map(|(i, v)| (K::new(i), v))
    }

    pub fn keys(&self) -> impl Iterator<Item = K> + use<K, V> {
        (0..self.values.len()).map(K::new)
    }
}

impl<K: EntityRef, V> FromIterator<V> for PrimaryMap<K, V> {
    fn from_iter<I: IntoIterator<Item = V>>(values: I) -> Self {
        PrimaryMap {
            values: values.into_iter().collect(),
            keys: PhantomData,
        }
    }
}

/// A value for every key, the default one where none was stored.
pub struct SecondaryMap<K: EntityRef, V: Clone> {
    values: Vec<V>,
    default: V,
    keys: PhantomData<K>,
}

impl<K: EntityRef, V: Clone + Default> SecondaryMap<K, V> {
    pub fn new() -> Self {
        SecondaryMap {
            values: Vec::new(),
            default: V::default(),
            keys: PhantomData,
        }
    }
}

impl<K: EntityRef, V: Clone> Index<K> for SecondaryMap<K, V> {
    type Output = V;

    fn index(&self, key: K) -> &V {
        self.values.get(key.index()).unwrap_or(&self.default)
    }
}

impl<K: EntityRef, V: Clone> IndexMut<K> for SecondaryMap<K, V> {
    fn index_mut(&mut self, key: K) -> &mut V {
        let number = key.index();
        if number >= self.values.len() {
            self.values.resize(number + 1, self.default.clone());
        }
        &mut self.values[number]
    }
}

/// A set of keys, walked in rising order.
pub struct EntitySet<K: EntityRef>(BTreeSet<K>);

impl<K: EntityRef> EntitySet<K> {
    pub fn contains(&self, key: K) -> bool {
        self.0.contains(&key)
    }

    pub fn iter(&self) -> impl Iterator<Item = K> {
        self.0.iter().copied()
    }
}

impl<K: EntityRef> FromIterator<K> for EntitySet<K> {
    fn from_iter<I: IntoIterator<Item = K>>(keys: I) -> Self {
        EntitySet(keys.into_iter().collect())
    }
}
