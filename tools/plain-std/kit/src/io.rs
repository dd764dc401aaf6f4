//! Readers and writers, as Rust has them, and a writer that gathers what it is given.

use crate::alloc::{AllocError, Global};
use crate::prelude::Vec;

pub use std::io::{Error, ErrorKind, Read, Result, Seek, SeekFrom, Write};

/// Gathers bytes, and writes them where they fill its memory or are flushed.
#[derive(Debug)]
pub struct BufWriter<W> {
    bytes: Vec<u8>,
    len: usize,
    writer: W,
}

impl<W: Write> BufWriter<W> {
    /// Takes memory for so many bytes.
    pub fn with_capacity(alloc: Global, capacity: usize, writer: W) -> std::result::Result<Self, AllocError> {
        let bytes = Vec::filled(alloc, 0, capacity)?;
        Ok(BufWriter { bytes, len: 0, writer })
    }

    /// Writes what was gathered. What an error leaves unwritten stays.
    fn write_gathered(&mut self) -> Result<()> {
        let mut written = 0;
        let ended = loop {
            if written == self.len {
                break Ok(());
            }
            match self.writer.write(&self.bytes[written..self.len]) {
                Ok(0) => break Err(Error::from(ErrorKind::WriteZero)),
                Ok(count) => written += count,
                Err(error) => break Err(error),
            }
        };
        self.bytes.copy_within(written..self.len, 0);
        self.len -= written;
        ended
    }
}

impl<W: Write> Write for BufWriter<W> {
    fn write(&mut self, bytes: &[u8]) -> Result<usize> {
        if bytes.len() > self.bytes.len() - self.len {
            self.write_gathered()?;
        }
        if bytes.len() >= self.bytes.len() {
            return self.writer.write(bytes);
        }
        self.bytes[self.len..self.len + bytes.len()].copy_from_slice(bytes);
        self.len += bytes.len();
        Ok(bytes.len())
    }

    fn flush(&mut self) -> Result<()> {
        self.write_gathered()?;
        self.writer.flush()
    }
}

/// What may be a terminal.
pub trait IsTerminal {
    /// Whether it is one.
    fn is_terminal(&self) -> bool;
}
