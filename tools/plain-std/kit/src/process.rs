//! How a program ends.

/// A status.
#[derive(Clone, Copy, Debug)]
pub struct ExitCode(u8);

impl ExitCode {
    /// The number that the system is given.
    pub fn status(self) -> i32 {
        i32::from(self.0)
    }
}

impl From<u8> for ExitCode {
    fn from(status: u8) -> Self {
        ExitCode(status)
    }
}
