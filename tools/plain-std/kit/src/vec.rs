//! Vectors that grow where there is memory for it.

use crate::alloc::{AllocError, Global};
use std::ops::{Deref, DerefMut};

/// Items in one piece of memory.
#[derive(Debug)]
pub struct Vec<T>(std::vec::Vec<T>);

impl<T> Vec<T> {
    /// No items, and no memory.
    pub fn new(_alloc: Global) -> Self {
        Vec(std::vec::Vec::new())
    }

    /// No items, and memory for so many.
    pub fn with_capacity(_alloc: Global, capacity: usize) -> Result<Self, AllocError> {
        let mut items = std::vec::Vec::new();
        items.try_reserve_exact(capacity)?;
        Ok(Vec(items))
    }

    /// For how many items there is memory.
    pub fn capacity(&self) -> usize {
        self.0.capacity()
    }

    /// So many copies of an item.
    pub fn filled(alloc: Global, item: T, len: usize) -> Result<Self, AllocError>
    where
        T: Clone,
    {
        let mut items = Vec::with_capacity(alloc, len)?;
        items.0.resize(len, item);
        Ok(items)
    }

    /// The items of a slice.
    pub fn from_slice(alloc: Global, items: &[T]) -> Result<Self, AllocError>
    where
        T: Clone,
    {
        let mut made = Vec::new(alloc);
        made.extend_from_slice(items)?;
        Ok(made)
    }

    /// Adds copies of these items.
    pub fn extend_from_slice(&mut self, items: &[T]) -> Result<(), AllocError>
    where
        T: Clone,
    {
        self.0.try_reserve(items.len())?;
        self.0.extend_from_slice(items);
        Ok(())
    }

    /// Adds an item.
    pub fn push(&mut self, item: T) -> Result<(), AllocError> {
        self.0.try_reserve(1)?;
        self.0.push(item);
        Ok(())
    }

    /// Adds an item for which there is memory.
    #[inline]
    pub fn push_reserved(&mut self, item: T) {
        assert!(self.0.len() < self.0.capacity());
        self.0.push(item);
    }

    /// Makes it as long as asked for, by copies of an item.
    #[inline]
    pub fn resize(&mut self, len: usize, item: T) -> Result<(), AllocError>
    where
        T: Clone,
    {
        self.0.try_reserve(len.saturating_sub(self.0.len()))?;
        self.0.resize(len, item);
        Ok(())
    }

    /// Takes the last item.
    #[inline]
    pub fn pop(&mut self) -> Option<T> {
        self.0.pop()
    }

    /// Drops all but the first items.
    #[inline]
    pub fn truncate(&mut self, len: usize) {
        self.0.truncate(len);
    }

    /// Drops all items.
    #[inline]
    pub fn clear(&mut self) {
        self.0.clear();
    }

    /// The items.
    #[inline]
    pub fn as_slice(&self) -> &[T] {
        &self.0
    }

    /// The items, to be changed.
    #[inline]
    pub fn as_mut_slice(&mut self) -> &mut [T] {
        &mut self.0
    }
}

impl<T> Deref for Vec<T> {
    type Target = [T];

    #[inline]
    fn deref(&self) -> &[T] {
        &self.0
    }
}

impl<T> DerefMut for Vec<T> {
    #[inline]
    fn deref_mut(&mut self) -> &mut [T] {
        &mut self.0
    }
}

impl<T> IntoIterator for Vec<T> {
    type Item = T;

    type IntoIter = std::vec::IntoIter<T>;

    fn into_iter(self) -> Self::IntoIter {
        self.0.into_iter()
    }
}

impl<'a, T> IntoIterator for &'a Vec<T> {
    type Item = &'a T;

    type IntoIter = std::slice::Iter<'a, T>;

    fn into_iter(self) -> Self::IntoIter {
        self.0.iter()
    }
}
