//! Files.

use crate::io;
use crate::rt::Files;

/// Opens a file to read it.
pub fn open<R: Files>(files: &R, path: &str) -> io::Result<R::File> {
    files.open(path)
}

/// What is known of the file of a path.
pub fn metadata<R: Files>(files: &R, path: &str) -> io::Result<std::fs::Metadata> {
    files.metadata(path)
}
