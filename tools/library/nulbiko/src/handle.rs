//! Many pages that are set alike.

use crate::calls::{Made, made, plain, setup_of};
use crate::words::{Limits, Options, Stopped, Why};
use kit::alloc::Global;
use nulbiko_lent::opened::{nulbiko_close_lent, nulbiko_open_lent, nulbiko_run_lent};
use std::fmt;

/// Many pages that are set alike, after the same macros.
///
/// ```
/// use nulbiko::{Handle, Limits, MAN, Options};
///
/// let mut handle = Handle::open(&Limits::OF_STRANGERS, &Options::PAGE, MAN)?;
/// for text in [".TH A 1\n.SH NAME\na \\- one\n", ".TH B 1\n.SH NAME\nb \\- two\n"] {
///     let page = handle.run(text.as_bytes())?;
///     assert!(String::from_utf8(page.bytes).unwrap().contains("NAME"));
/// }
/// # Ok::<(), nulbiko::Stopped>(())
/// ```
pub struct Handle {
    lent: nulbiko_lent::Handle,
}

impl Handle {
    /// Opens one: how pages are set, and a copy of the macros, are kept.
    ///
    /// # Errors
    ///
    /// Where a limit is out of range, or there isn't enough memory.
    pub fn open(limits: &Limits, options: &Options, macros: &[u8]) -> Result<Handle, Stopped> {
        let mut lent = nulbiko_lent::Handle::none(Global);
        let why = match nulbiko_open_lent(Global, &setup_of(limits, options), macros, &mut lent) {
            0 => return Ok(Handle { lent }),
            5 => Why::OutOfMemory,
            _ => Why::OutOfRange,
        };
        Err(Stopped { call: "open", why, line: 0, bytes: Vec::new() })
    }

    /// Prints a page as [`document`](crate::document()) does with what this was opened with, whatever it printed before. After a
    /// page that stopped it serves for the next.
    ///
    /// # Errors
    ///
    /// As `document`.
    pub fn run(&mut self, text: &[u8]) -> Result<Made, Stopped> {
        let lent = &mut self.lent;
        made("run", text, |output, report| nulbiko_run_lent(Global, lent, text, output, report)).map(plain)
    }
}

impl fmt::Debug for Handle {
    fn fmt(&self, f: &mut fmt::Formatter<'_>) -> fmt::Result {
        f.debug_struct("Handle").finish_non_exhaustive()
    }
}

impl Drop for Handle {
    fn drop(&mut self) {
        nulbiko_close_lent(Global, &mut self.lent);
    }
}
