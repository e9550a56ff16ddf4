//! Stand-in: maps and sets by small number, with the calls that the seven files make.
//!
//! The order of `EntitySet::iter`, rising numbers, is taken from 01 and so not compared.

use std::{
    marker::PhantomData,
    ops::{Index, IndexMut},
};

pub trait EntityRef: Copy + Eq {
    fn new(index: usize) -> Self;
    fn index(self) -> usize;
}

#[macro_export]
macro_rules! entity_impl {
    ($entity:ident) => {
        impl $crate::EntityRef for $entity {
            fn new(index: usize) -> Self {
                Self(u32::try_from(index).expect("entity number fits in u32"))
            }

            fn index(self) -> usize {
                self.0 as usize
            }
        }
    };
}

/// Values by the key that pushing gave back.
pub struct PrimaryMap<K, V> {
    values: Vec<V>,
    key: PhantomData<K>,
}

impl<K: EntityRef, V> PrimaryMap<K, V> {
    pub const fn new() -> Self {
        Self { values: Vec::new(), key: PhantomData }
    }

    pub fn push(&mut self, value: V) -> K {
        let key = K::new(self.values.len());
        self.values.push(value);
        key
    }

    pub fn values(&self) -> std::slice::Iter<'_, V> {
        self.values.iter()
    }
}

impl<K: EntityRef, V> Index<K> for PrimaryMap<K, V> {
    type Output = V;

    fn index(&self, key: K) -> &V {
        &self.values[key.index()]
    }
}

/// Values by key, the default where none was set.
pub struct SecondaryMap<K, V> {
    values: Vec<V>,
    default: V,
    key: PhantomData<K>,
}

impl<K: EntityRef, V: Clone + Default> SecondaryMap<K, V> {
    pub fn new() -> Self {
        Self { values: Vec::new(), default: V::default(), key: PhantomData }
    }
}

impl<K: EntityRef, V: Clone> Index<K> for SecondaryMap<K, V> {
    type Output = V;

    fn index(&self, key: K) -> &V {
        self.values.get(key.index()).unwrap_or(&self.default)
    }
}

impl<K: EntityRef, V: Clone> IndexMut<K> for SecondaryMap<K, V> {
    fn index_mut(&mut self, key: K) -> &mut V {
        let index = key.index();
        if index >= self.values.len() {
            self.values.resize(index + 1, self.default.clone());
        }
        &mut self.values[index]
    }
}

/// A set of keys, one bit each.
pub struct EntitySet<K> {
    bits: Vec<u64>,
    key: PhantomData<K>,
}

impl<K: EntityRef> EntitySet<K> {
    pub const fn new() -> Self {
        Self { bits: Vec::new(), key: PhantomData }
    }

    /// Whether the key is new.
    pub fn insert(&mut self, key: K) -> bool {
        let (cell, bit) = place(key);
        if cell >= self.bits.len() {
            self.bits.resize(cell + 1, 0);
        }
        let fresh = self.bits[cell] & bit == 0;
        self.bits[cell] |= bit;
        fresh
    }

    pub fn contains(&self, key: K) -> bool {
        let (cell, bit) = place(key);
        self.bits.get(cell).is_some_and(|bits| bits & bit != 0)
    }

    pub fn iter(&self) -> impl Iterator<Item = K> + '_ {
        (0..self.bits.len() * 64).map(K::new).filter(|&key| self.contains(key))
    }
}

fn place<K: EntityRef>(key: K) -> (usize, u64) {
    (key.index() / 64, 1 << (key.index() % 64))
}
