//! Where memory comes from.

use std::collections::TryReserveError;

/// There was not enough memory.
#[derive(Clone, Copy, Debug)]
pub struct AllocError;

impl From<TryReserveError> for AllocError {
    fn from(_: TryReserveError) -> Self {
        AllocError
    }
}

/// What memory is taken from.
pub trait Allocator {}

/// The memory of the system.
#[derive(Clone, Copy, Debug)]
pub struct Global;

impl Allocator for Global {}
