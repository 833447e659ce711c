// What stands for the library of the kit in the port: the same calls over Rust's own `Vec`, `Box`, `HashMap`. Nothing here is proved; it is to cost
// about what the kit's library costs. Want of memory is told where Rust can tell it.

use std::borrow::Borrow;
use std::cmp::Ordering;
use std::collections::HashMap;
use std::hash::Hash;
use std::ops::{Deref, DerefMut};

/// Memory was wanting.
#[derive(Clone, Copy, PartialEq, Eq)]
pub struct AllocError;

/// Where memory comes from.
#[derive(Clone, Copy)]
pub struct Global;

// --- lists ---

/// A list that tells want of memory.
pub struct Vec<T> {
    items: std::vec::Vec<T>,
}

impl<T> Vec<T> {
    #[inline(always)]
    pub fn new(_: Global) -> Vec<T> {
        Vec {
            items: std::vec::Vec::new(),
        }
    }

    #[inline(always)]
    pub fn with_capacity(_: Global, count: usize) -> Result<Vec<T>, AllocError> {
        let mut items = std::vec::Vec::new();
        match items.try_reserve_exact(count) {
            Ok(()) => Ok(Vec { items }),
            Err(_) => Err(AllocError),
        }
    }

    #[inline(always)]
    pub fn len(&self) -> usize {
        self.items.len()
    }

    #[inline(always)]
    pub fn capacity(&self) -> usize {
        self.items.capacity()
    }

    #[inline(always)]
    pub fn is_empty(&self) -> bool {
        self.items.is_empty()
    }

    #[inline(always)]
    pub fn as_slice(&self) -> &[T] {
        &self.items
    }

    #[inline(always)]
    pub fn as_mut_slice(&mut self) -> &mut [T] {
        &mut self.items
    }

    #[inline(always)]
    pub fn reserve(&mut self, more: usize) -> Result<(), AllocError> {
        self.items.try_reserve(more).map_err(|_| AllocError)
    }

    #[inline(always)]
    pub fn push(&mut self, item: T) -> Result<(), AllocError> {
        if self.items.len() == self.items.capacity() {
            self.reserve(1)?;
        }
        self.push_reserved(item);
        Ok(())
    }

    /// Where there is room, which the kit demands by a contract: so without a look.
    #[inline(always)]
    pub fn push_reserved(&mut self, item: T) {
        let count = self.items.len();
        // the code that calls this is proved to have made room
        unsafe {
            std::ptr::write(self.items.as_mut_ptr().add(count), item);
            self.items.set_len(count + 1);
        }
    }

    #[inline(always)]
    pub fn pop(&mut self) -> Option<T> {
        self.items.pop()
    }

    #[inline(always)]
    pub fn truncate(&mut self, count: usize) {
        self.items.truncate(count)
    }

    #[inline(always)]
    pub fn clear(&mut self) {
        self.items.clear()
    }

    pub fn insert(&mut self, place: usize, item: T) -> Result<(), AllocError> {
        self.reserve(1)?;
        self.items.insert(place, item);
        Ok(())
    }

    pub fn remove(&mut self, place: usize) -> T {
        self.items.remove(place)
    }

    #[inline(always)]
    pub fn swap_remove(&mut self, place: usize) -> T {
        self.items.swap_remove(place)
    }

    /// The list keeps so many items; those behind them are given back.
    pub fn split_off(&mut self, count: usize) -> Result<Vec<T>, AllocError> {
        Ok(Vec {
            items: self.items.split_off(count),
        })
    }

    pub fn sort_by<F: FnMut(&T, &T) -> Ordering>(&mut self, order: F) -> Result<(), AllocError> {
        self.items.sort_by(order);
        Ok(())
    }

    pub fn append(&mut self, other: &mut Vec<T>) -> Result<(), AllocError> {
        self.reserve(other.len())?;
        self.items.append(&mut other.items);
        Ok(())
    }
}

impl<T: Copy> Vec<T> {
    #[inline(always)]
    pub fn from_slice(alloc: Global, slice: &[T]) -> Result<Vec<T>, AllocError> {
        let mut copy = Vec::with_capacity(alloc, slice.len())?;
        copy.items.extend_from_slice(slice);
        Ok(copy)
    }

    #[inline(always)]
    pub fn extend_from_slice(&mut self, slice: &[T]) -> Result<(), AllocError> {
        self.reserve(slice.len())?;
        self.items.extend_from_slice(slice);
        Ok(())
    }

    pub fn from_elem(alloc: Global, item: T, count: usize) -> Result<Vec<T>, AllocError> {
        let mut made = Vec::new(alloc);
        made.resize(count, item)?;
        Ok(made)
    }

    pub fn resize(&mut self, count: usize, item: T) -> Result<(), AllocError> {
        self.reserve(count.saturating_sub(self.items.len()))?;
        self.items.resize(count, item);
        Ok(())
    }
}

impl<T: Clone> Vec<T> {
    pub fn clone(&self) -> Result<Vec<T>, AllocError> {
        Ok(Vec {
            items: self.items.clone(),
        })
    }
}

impl<T> Deref for Vec<T> {
    type Target = [T];

    #[inline(always)]
    fn deref(&self) -> &[T] {
        &self.items
    }
}

impl<T> DerefMut for Vec<T> {
    #[inline(always)]
    fn deref_mut(&mut self) -> &mut [T] {
        &mut self.items
    }
}

impl<T> IntoIterator for Vec<T> {
    type Item = T;
    type IntoIter = std::vec::IntoIter<T>;

    #[inline(always)]
    fn into_iter(self) -> Self::IntoIter {
        self.items.into_iter()
    }
}

impl<'a, T> IntoIterator for &'a Vec<T> {
    type Item = &'a T;
    type IntoIter = std::slice::Iter<'a, T>;

    #[inline(always)]
    fn into_iter(self) -> Self::IntoIter {
        self.items.iter()
    }
}

/// What stands for `collect` of the kit, which is told where memory comes from.
pub trait Collected: Iterator + Sized {
    fn collected(self, alloc: Global) -> Result<Vec<Self::Item>, AllocError> {
        let mut found = Vec::new(alloc);
        for item in self {
            found.push(item)?;
        }
        Ok(found)
    }
}

impl<I: Iterator> Collected for I {}

/// A list of these items, which tells want of memory.
#[macro_export]
macro_rules! vec {
    (in $alloc:expr; $($item:expr),* $(,)?) => {{
        let mut list = $crate::prelude::Vec::new($alloc);
        let mut made = Ok(());
        $(made = made.and(list.push($item));)*
        made.map(|()| list)
    }};
}

/// A text, which tells no want of memory here.
#[macro_export]
macro_rules! format {
    (in $alloc:expr; $($part:tt)*) => {
        Ok::<std::string::String, $crate::prelude::AllocError>(std::format!($($part)*))
    };
}

// --- boxes and tables ---

/// A box that tells want of memory; Rust's own does not, so none is told.
pub struct Box<T> {
    inner: std::boxed::Box<T>,
}

impl<T> Box<T> {
    #[inline(always)]
    pub fn new(_: Global, inner: T) -> Result<Box<T>, AllocError> {
        Ok(Box {
            inner: std::boxed::Box::new(inner),
        })
    }

    #[inline(always)]
    pub fn into_inner(boxed: Box<T>) -> T {
        *boxed.inner
    }
}

impl<T> Deref for Box<T> {
    type Target = T;

    #[inline(always)]
    fn deref(&self) -> &T {
        &self.inner
    }
}

impl<T> DerefMut for Box<T> {
    #[inline(always)]
    fn deref_mut(&mut self) -> &mut T {
        &mut self.inner
    }
}

/// A table by keys. No program of the measures goes through one while it runs.
pub struct IndexMap<K, V> {
    table: HashMap<K, V>,
}

impl<K: Hash + Eq, V> IndexMap<K, V> {
    pub fn new(_: Global) -> IndexMap<K, V> {
        IndexMap {
            table: HashMap::new(),
        }
    }

    pub fn get<Q: ?Sized + Hash + Eq>(&self, key: &Q) -> Option<&V>
    where
        K: Borrow<Q>,
    {
        self.table.get(key)
    }

    pub fn contains_key<Q: ?Sized + Hash + Eq>(&self, key: &Q) -> bool
    where
        K: Borrow<Q>,
    {
        self.table.contains_key(key)
    }

    pub fn insert(&mut self, key: K, value: V) -> Result<Option<V>, AllocError> {
        Ok(self.table.insert(key, value))
    }
}

/// A set in the order of its items, which tells want of memory; Rust's own does not, so none is told.
pub struct BTreeSet<K> {
    items: std::collections::BTreeSet<K>,
}

impl<K: Ord> BTreeSet<K> {
    pub fn new(_: Global) -> BTreeSet<K> {
        BTreeSet {
            items: std::collections::BTreeSet::new(),
        }
    }

    pub fn contains(&self, item: &K) -> bool {
        self.items.contains(item)
    }

    pub fn insert(&mut self, item: K) -> Result<bool, AllocError> {
        Ok(self.items.insert(item))
    }

    pub fn remove(&mut self, item: &K) -> bool {
        self.items.remove(item)
    }

    pub fn first(&self) -> Option<&K> {
        self.items.first()
    }
}

// --- numbers ---

/// What the prover is to show of constants: here the compiler looks.
#[macro_export]
macro_rules! prove {
    ($what:expr) => {
        assert!($what)
    };
}

/// Shifts by less than the width, which is proved where they are called.
pub trait Shifts {
    fn strict_shl(self, count: u32) -> Self;
}

impl Shifts for u64 {
    #[inline(always)]
    fn strict_shl(self, count: u32) -> u64 {
        self << count
    }
}

// --- threads and gates ---

/// Jobs on threads; here they are done one after the other, as by one worker, so that a count is the same each time.
pub mod thread {
    use super::{AllocError, Global, Vec};

    /// What threads are made by.
    pub trait Threads {}

    impl Threads for Global {}

    /// What the function makes of each item, in order.
    pub fn map_vec<R: Threads, T, U, F: Fn(T) -> U>(
        _: &R,
        items: Vec<T>,
        change: &F,
    ) -> Result<Vec<U>, AllocError> {
        let mut made = Vec::new(Global);
        for item in items {
            made.push(change(item))?;
        }
        Ok(made)
    }
}

/// What is called before a task begins: nothing, here.
pub trait Gate: Sync {
    fn pass(&self, worker: u32, point: &[u16]);
}

/// A gate that does nothing.
pub struct NoGate;

impl Gate for NoGate {
    fn pass(&self, _: u32, _: &[u16]) {}
}
