//! Texts that grow where there is memory for it.

use crate::alloc::{AllocError, Global};
use std::ops::Deref;

/// A text of UTF-8.
#[derive(Debug)]
pub struct String(std::string::String);

impl String {
    /// An empty text.
    pub fn new(_alloc: Global) -> Self {
        String(std::string::String::new())
    }

    /// A text like this one.
    pub fn from_str(alloc: Global, text: &str) -> Result<Self, AllocError> {
        let mut made = String::new(alloc);
        made.push_str(text)?;
        Ok(made)
    }

    /// Adds a text at the end, or nothing.
    pub fn push_str(&mut self, text: &str) -> Result<(), AllocError> {
        self.0.try_reserve(text.len())?;
        self.0.push_str(text);
        Ok(())
    }

    /// A text of these bytes, in which what is no UTF-8 is U+FFFD.
    pub fn from_utf8_lossy(_alloc: Global, bytes: &[u8]) -> Result<Self, AllocError> {
        let mut text = std::string::String::new();
        for chunk in bytes.utf8_chunks() {
            let marks = if chunk.invalid().is_empty() { "" } else { "\u{fffd}" };
            text.try_reserve(chunk.valid().len() + marks.len())?;
            text.push_str(chunk.valid());
            text.push_str(marks);
        }
        Ok(String(text))
    }

    /// The text.
    pub fn as_str(&self) -> &str {
        &self.0
    }
}

impl Deref for String {
    type Target = str;

    fn deref(&self) -> &str {
        &self.0
    }
}
