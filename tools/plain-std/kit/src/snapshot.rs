//! A value as it was, for proofs alone: it takes no memory.

use std::marker::PhantomData;

/// What a value was.
#[derive(Debug)]
pub struct Snapshot<T>(PhantomData<T>);

impl<T> Snapshot<T> {
    /// Of this value as it is now.
    #[inline]
    pub fn of(_value: &T) -> Self {
        Snapshot(PhantomData)
    }
}
