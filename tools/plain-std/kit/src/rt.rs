//! The system that `main` is handed: words, files and streams. Nothing here takes memory but the opening of a file with
//! a long name.

use crate::alloc::Global;
use crate::env::FillError;
use crate::io::{Error, ErrorKind, IsTerminal, Read, Result, Write};
use crate::path::PathBuf;
use std::ffi::{CStr, c_char};
use std::fs::{File, Metadata};
use std::mem::ManuallyDrop;
#[cfg(unix)]
use std::os::fd::FromRawFd;

/// Where words come from.
pub trait Env {
    /// Copies the word at a place to the front of a buffer, and gives its length. The program's name is at 0.
    fn arg(&self, place: usize, buffer: &mut [u8]) -> std::result::Result<usize, FillError>;

    /// Copies the value of a variable of the environment to the front of a buffer, and gives its length.
    fn var(&self, name: &str, buffer: &mut [u8]) -> std::result::Result<usize, FillError>;
}

/// Where files come from.
pub trait Files {
    /// A file that is open.
    type File: Read;

    /// Opens a file to read it.
    fn open(&self, path: &str) -> Result<Self::File>;

    /// What is known of the file of a path.
    fn metadata(&self, path: &str) -> Result<Metadata>;

    /// Where a path leads, all links followed.
    fn canonicalize(&self, alloc: Global, path: &str) -> Result<PathBuf>;
}

/// The system.
pub struct HostRuntime {
    words: &'static [*const c_char],
}

impl HostRuntime {
    /// The system with the words that C's `main` is given. A write to a pipe that nobody reads becomes an error.
    ///
    /// # Safety
    ///
    /// `words` points to `count` texts that end with 0, and all of it stays.
    pub unsafe fn new(count: i32, words: *const *const c_char) -> Self {
        ignore_broken_pipes();
        let count = usize::try_from(count).unwrap_or(0);
        let words = if count == 0 { &[][..] } else { unsafe { std::slice::from_raw_parts(words, count) } };
        HostRuntime { words }
    }

    /// The memory of the system.
    pub fn alloc(&self) -> Global {
        Global
    }

    /// Standard input.
    pub fn stdin(&self) -> Stream {
        Stream(0)
    }

    /// Standard output.
    pub fn stdout(&self) -> Stream {
        Stream(1)
    }

    /// Standard error.
    pub fn stderr(&self) -> Stream {
        Stream(2)
    }
}

impl Env for HostRuntime {
    fn arg(&self, place: usize, buffer: &mut [u8]) -> std::result::Result<usize, FillError> {
        let word = *self.words.get(place).ok_or(FillError::NotPresent)?;
        // Sound: as `new` asks for.
        let bytes = unsafe { CStr::from_ptr(word) }.to_bytes();
        let front = buffer.get_mut(..bytes.len()).ok_or(FillError::TooLong)?;
        front.copy_from_slice(bytes);
        Ok(bytes.len())
    }

    fn var(&self, name: &str, buffer: &mut [u8]) -> std::result::Result<usize, FillError> {
        let value = std::env::var_os(name).ok_or(FillError::NotPresent)?;
        let bytes = value.as_encoded_bytes();
        let front = buffer.get_mut(..bytes.len()).ok_or(FillError::TooLong)?;
        front.copy_from_slice(bytes);
        Ok(bytes.len())
    }
}

impl Files for HostRuntime {
    type File = File;

    fn open(&self, path: &str) -> Result<File> {
        File::open(path)
    }

    fn metadata(&self, path: &str) -> Result<Metadata> {
        std::fs::metadata(path)
    }

    fn canonicalize(&self, alloc: Global, path: &str) -> Result<PathBuf> {
        let path = std::fs::canonicalize(path)?;
        let text = path.to_str().ok_or(Error::from(ErrorKind::InvalidData))?;
        PathBuf::from_str(alloc, text)
    }
}

/// A descriptor that was open when the program began, or was not: then each call is an error.
#[derive(Clone, Copy, Debug)]
pub struct Stream(i32);

impl Stream {
    #[cfg(unix)]
    fn file(self) -> ManuallyDrop<File> {
        // Sound: the descriptor is never closed.
        ManuallyDrop::new(unsafe { File::from_raw_fd(self.0) })
    }

    /// Only programs have streams, and libraries alone are built for other systems.
    #[cfg(not(unix))]
    fn file(self) -> ManuallyDrop<File> {
        unreachable!()
    }
}

impl IsTerminal for Stream {
    fn is_terminal(&self) -> bool {
        std::io::IsTerminal::is_terminal(&*self.file())
    }
}

impl Read for Stream {
    fn read(&mut self, buffer: &mut [u8]) -> Result<usize> {
        self.file().read(buffer)
    }
}

impl Write for Stream {
    fn write(&mut self, bytes: &[u8]) -> Result<usize> {
        self.file().write(bytes)
    }

    fn flush(&mut self) -> Result<()> {
        Ok(())
    }
}

/// Has the system answer EPIPE in place of the signal.
fn ignore_broken_pipes() {
    unsafe extern "C" {
        fn signal(signal: i32, handler: usize) -> usize;
    }
    const SIGPIPE: i32 = 13;
    const IGNORED: usize = 1;
    // Sound: a call of C's with numbers.
    unsafe { signal(SIGPIPE, IGNORED) };
}
