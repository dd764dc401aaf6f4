//! Paths.

use crate::alloc::Global;
use crate::io::{Error, ErrorKind, Result};
use crate::prelude::String;

/// A path.
#[derive(Debug)]
pub struct PathBuf(String);

impl PathBuf {
    /// The path of these bytes.
    pub(crate) fn from_str(alloc: Global, text: &str) -> Result<Self> {
        match String::from_str(alloc, text) {
            Ok(text) => Ok(PathBuf(text)),
            Err(_) => Err(Error::from(ErrorKind::OutOfMemory)),
        }
    }

    /// Its text.
    pub fn into_string(self) -> String {
        self.0
    }
}
