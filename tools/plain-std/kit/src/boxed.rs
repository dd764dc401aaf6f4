//! A value in memory of its own.

use crate::alloc::{AllocError, Global};
use std::ops::{Deref, DerefMut};

/// A value in memory of its own.
#[derive(Debug)]
pub struct Box<T, A = Global>(std::boxed::Box<[T; 1]>, A);

impl<T> Box<T> {
    /// Puts a value there.
    pub fn new(alloc: Global, value: T) -> Result<Self, AllocError> {
        let mut values = std::vec::Vec::new();
        values.try_reserve_exact(1)?;
        values.push(value);
        match values.try_into() {
            Ok(value) => Ok(Box(value, alloc)),
            Err(_) => Err(AllocError),
        }
    }
}

impl<T, A> Box<T, A> {
    /// Its pointer, and what its memory is taken from.
    pub fn into_raw_with_allocator(boxed: Self) -> (*mut T, A) {
        (std::boxed::Box::into_raw(boxed.0).cast(), boxed.1)
    }

    /// The box of a pointer.
    ///
    /// # Safety
    ///
    /// The pointer is that of a box that was taken apart, and of no other box.
    pub unsafe fn from_raw(alloc: A, at: *mut T) -> Self {
        // Sound: an array of one value lies as the value does.
        Box(unsafe { std::boxed::Box::from_raw(at.cast()) }, alloc)
    }
}

impl<T, A> Deref for Box<T, A> {
    type Target = T;

    #[inline]
    fn deref(&self) -> &T {
        &self.0[0]
    }
}

impl<T, A> DerefMut for Box<T, A> {
    #[inline]
    fn deref_mut(&mut self) -> &mut T {
        &mut self.0[0]
    }
}
