//! What the programs use of the crate arrayvec: vectors and texts in an array.

use std::fmt;
use std::mem::MaybeUninit;
use std::ops::{Deref, DerefMut};

/// At most `N` items.
#[derive(Clone, Copy)]
pub struct ArrayVec<T: Copy, const N: usize> {
    // The first `len` were written.
    items: [MaybeUninit<T>; N],
    len: usize,
}

/// There is no room for this.
#[derive(Clone, Copy, Debug, PartialEq, Eq)]
pub struct CapacityError<T = ()>(T);

impl<T: Copy, const N: usize> ArrayVec<T, N> {
    /// No items.
    #[inline]
    pub const fn new() -> Self {
        // Sound: an item that need not be written may be anything. A repeated item would be written, N times.
        let items = unsafe { MaybeUninit::<[MaybeUninit<T>; N]>::uninit().assume_init() };
        ArrayVec { items, len: 0 }
    }

    /// Whether there is no room for another.
    #[inline]
    pub fn is_full(&self) -> bool {
        self.len == N
    }

    /// Adds an item. It panics where there is no room.
    #[inline]
    pub fn push(&mut self, item: T) {
        self.items[self.len] = MaybeUninit::new(item);
        self.len += 1;
    }

    /// Adds an item where there is room.
    #[inline]
    pub fn try_push(&mut self, item: T) -> Result<(), CapacityError<T>> {
        if self.is_full() {
            return Err(CapacityError(item));
        }
        self.push(item);
        Ok(())
    }

    /// Adds items where there is room for all of them.
    #[inline]
    pub fn try_extend_from_slice(&mut self, more: &[T]) -> Result<(), CapacityError> {
        if more.len() > N - self.len {
            return Err(CapacityError(()));
        }
        for item in more {
            self.push(*item);
        }
        Ok(())
    }

    /// Takes the last item.
    #[inline]
    pub fn pop(&mut self) -> Option<T> {
        let last = self.as_slice().last().copied()?;
        self.len -= 1;
        Some(last)
    }

    /// Drops all items.
    #[inline]
    pub fn clear(&mut self) {
        self.len = 0;
    }

    /// The items.
    #[inline]
    pub fn as_slice(&self) -> &[T] {
        // Sound: the first `len` were written.
        unsafe { std::slice::from_raw_parts(self.items.as_ptr().cast(), self.len) }
    }

    /// The items, to be changed.
    #[inline]
    pub fn as_mut_slice(&mut self) -> &mut [T] {
        // Sound: the first `len` were written.
        unsafe { std::slice::from_raw_parts_mut(self.items.as_mut_ptr().cast(), self.len) }
    }
}

impl<T: Copy, const N: usize> Default for ArrayVec<T, N> {
    fn default() -> Self {
        ArrayVec::new()
    }
}

impl<T: Copy, const N: usize> Deref for ArrayVec<T, N> {
    type Target = [T];

    #[inline]
    fn deref(&self) -> &[T] {
        self.as_slice()
    }
}

impl<T: Copy, const N: usize> DerefMut for ArrayVec<T, N> {
    #[inline]
    fn deref_mut(&mut self) -> &mut [T] {
        self.as_mut_slice()
    }
}

impl<'a, T: Copy, const N: usize> IntoIterator for &'a ArrayVec<T, N> {
    type Item = &'a T;

    type IntoIter = std::slice::Iter<'a, T>;

    fn into_iter(self) -> Self::IntoIter {
        self.iter()
    }
}

impl<T: Copy + PartialEq, const N: usize> PartialEq for ArrayVec<T, N> {
    fn eq(&self, other: &Self) -> bool {
        self.as_slice() == other.as_slice()
    }
}

impl<T: Copy + Eq, const N: usize> Eq for ArrayVec<T, N> {}

impl<T: Copy + fmt::Debug, const N: usize> fmt::Debug for ArrayVec<T, N> {
    fn fmt(&self, f: &mut fmt::Formatter<'_>) -> fmt::Result {
        self.as_slice().fmt(f)
    }
}

/// A text of at most `N` bytes.
#[derive(Clone, Copy)]
pub struct ArrayString<const N: usize>(ArrayVec<u8, N>);

impl<const N: usize> ArrayString<N> {
    /// No text.
    pub const fn new() -> Self {
        ArrayString(ArrayVec::new())
    }

    /// Adds a text where there is room for all of it.
    pub fn try_push_str<'a>(&mut self, text: &'a str) -> Result<(), CapacityError<&'a str>> {
        self.0.try_extend_from_slice(text.as_bytes()).map_err(|_| CapacityError(text))
    }

    /// The text.
    pub fn as_str(&self) -> &str {
        std::str::from_utf8(&self.0).unwrap_or_default()
    }
}

impl<const N: usize> Default for ArrayString<N> {
    fn default() -> Self {
        ArrayString::new()
    }
}
