//! What the programs use of Rattle's std, over Rust's: memory is taken by calls that can be refused, and the words, the
//! files and the three streams come from a system that `main` is handed.
//!
//! What is the same in both is Rust's own.

pub use std::{cell, cmp, error, mem, ops, ptr};

pub mod alloc;
mod boxed;
pub mod env;
pub mod fs;
pub mod io;
pub mod path;
pub mod process;
pub mod rt;
pub mod snapshot;
mod string;
mod vec;

/// Formatting, as Rust has it.
pub mod fmt {
    pub use std::fmt::{Arguments, Debug, Display, Error, Formatter, Result, Write};
}

/// What stands in every module of Rattle.
pub mod prelude {
    pub use crate::boxed::Box;
    pub use crate::rt::HostRuntime;
    pub use crate::string::String;
    pub use crate::vec;
    pub use crate::vec::Vec;
}

/// A bound, or the greatest that the machine's words leave room for one more.
pub const fn most(bound: u64) -> usize {
    if bound < usize::MAX as u64 { bound as usize } else { usize::MAX - 1 }
}

/// A vector of as many copies of a value, or `AllocError`.
#[macro_export]
macro_rules! vec {
    (in $alloc:expr; $item:expr; $len:expr) => {
        $crate::prelude::Vec::filled($alloc, $item, $len)
    };
}

/// Makes a function of a `HostRuntime` the program's `main`, in a crate that is `no_main`.
#[macro_export]
macro_rules! entry {
    ($main:path) => {
        #[unsafe(export_name = "main")]
        extern "C" fn entry(count: i32, words: *const *const std::ffi::c_char) -> i32 {
            // Sound: the system calls it once, with its words.
            let system = unsafe { $crate::rt::HostRuntime::new(count, words) };
            $main(system).status()
        }
    };
}
