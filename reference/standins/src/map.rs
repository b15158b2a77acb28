//! enum_map: an array indexed by the variants of an enum.

use std::marker::PhantomData;
use std::ops::{Index, IndexMut};

pub trait Enum: Sized {
    const LENGTH: usize;
    fn from_usize(k: usize) -> Self;
    fn into_usize(self) -> usize;
}

pub struct EnumMap<K, V> {
    values: Vec<V>,
    key: PhantomData<K>,
}

impl<K: Enum, V> EnumMap<K, V> {
    pub fn from_fn<F: FnMut(K) -> V>(mut f: F) -> Self {
        let values = (0..K::LENGTH).map(|k| f(K::from_usize(k))).collect();
        EnumMap { values, key: PhantomData }
    }
}

impl<K: Enum, V> Index<K> for EnumMap<K, V> {
    type Output = V;
    fn index(&self, k: K) -> &V {
        &self.values[k.into_usize()]
    }
}

impl<K: Enum, V> IndexMut<K> for EnumMap<K, V> {
    fn index_mut(&mut self, k: K) -> &mut V {
        &mut self.values[k.into_usize()]
    }
}

impl<K: Enum, V> IntoIterator for EnumMap<K, V> {
    type Item = (K, V);
    type IntoIter = std::vec::IntoIter<(K, V)>;
    fn into_iter(self) -> Self::IntoIter {
        let pairs: Vec<(K, V)> =
            self.values.into_iter().enumerate().map(|(k, v)| (K::from_usize(k), v)).collect();
        pairs.into_iter()
    }
}

/// The one form that the sources use: the same value for every variant.
#[macro_export]
macro_rules! enum_map {
    (_ => $value:expr) => {
        $crate::EnumMap::from_fn(|_| $value)
    };
}
