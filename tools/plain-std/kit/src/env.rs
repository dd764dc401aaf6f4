//! The words of the command line.

/// Why a word does not fill a buffer.
#[derive(Clone, Copy, Debug)]
pub enum FillError {
    /// There is none.
    NotPresent,
    /// It is longer than the buffer.
    TooLong,
}
