//! The calls that include/nulbiko.h declares. Each looks at what C passes, and calls its fellow of nulbiko_lent.

mod handle;
mod names;
mod structs;

use kit::alloc::Global;
use nulbiko_lent::{DocumentSetup, Report as Reported};
use nulbiko_lent::document::nulbiko_document_lent;
use nulbiko_lent::formatting::nulbiko_format_lent;
use nulbiko_lent::looked::nulbiko_choose_own_lent;
use nulbiko_lent::mdoc::nulbiko_mdoc_lent;
use nulbiko_lent::preconv::nulbiko_preconv_lent;
use nulbiko_lent::staged::{nulbiko_preconv_own_lent, nulbiko_utf8_own_lent};
use nulbiko_lent::tbl::{nulbiko_tbl_lent, nulbiko_tbl_own_lent};
use nulbiko_lent::utf8::{nulbiko_choose_lent, nulbiko_utf8_lent};
use std::slice::{from_raw_parts, from_raw_parts_mut};
use structs::{DocumentOptions, Limits, NOTHING, Options, Report};

const OUT_OF_RANGE: u32 = 2;
const NULL: u32 = 3;
const TOO_LONG: u32 = 6;

/// A text and an output, as C passes them.
struct Passed {
    input: *const u8,
    length: usize,
    output: *mut u8,
    capacity: usize,
    report: *mut Report,
}

impl Passed {
    /// Calls with what was passed, and reports, or answers what is wrong with it.
    ///
    /// # Safety
    ///
    /// Each pointer is null or leads to as much as C said, and nothing else is in use of it.
    unsafe fn call(&self, run: impl FnOnce(&[u8], &mut [u8], &mut Reported) -> u32) -> u32 {
        if self.report.is_null() {
            return NULL;
        }
        // Sound: a report begins with its size.
        if unsafe { (&raw const (*self.report).size).read() } != size_of::<Report>() {
            return OUT_OF_RANGE;
        }
        let mut reported = NOTHING;
        let outcome = if (self.input.is_null() && self.length > 0) || (self.output.is_null() && self.capacity > 0) {
            NULL
        } else if self.length > isize::MAX as usize {
            TOO_LONG
        } else {
            // Sound: a text of no bytes may be null, and so its pointer isn't taken.
            let input = if self.length == 0 { &[][..] } else { unsafe { from_raw_parts(self.input, self.length) } };
            let capacity = self.capacity.min(isize::MAX as usize);
            let output =
                if capacity == 0 { &mut [][..] } else { unsafe { from_raw_parts_mut(self.output, capacity) } };
            run(input, output, &mut reported)
        };
        // Sound: its size is that of a report.
        unsafe { self.report.write(Report::of(&reported)) };
        outcome
    }
}

/// How a page is set and the macros before it, as C passes them, or what is wrong with that.
///
/// # Safety
///
/// Each pointer is null or leads to as much as C said.
unsafe fn asked<'a>(
    limits: *const Limits,
    options: *const DocumentOptions,
) -> Result<(DocumentSetup, &'a [u8]), u32> {
    if limits.is_null() || options.is_null() {
        return Err(NULL);
    }
    // Sound: each begins with its size.
    let (Some(limits), Some(options)) = (unsafe { Limits::read(limits) }, unsafe { DocumentOptions::read(options) })
    else {
        return Err(OUT_OF_RANGE);
    };
    let DocumentOptions { macros, macros_length, .. } = options;
    if macros.is_null() && macros_length > 0 {
        return Err(NULL);
    }
    if macros_length > isize::MAX as usize {
        return Err(TOO_LONG);
    }
    // Sound: a text of no bytes may be null, and so its pointer isn't taken.
    let macros = if macros_length == 0 { &[][..] } else { unsafe { from_raw_parts(macros, macros_length) } };
    Ok((options.under(limits), macros))
}

/// The page whose own table a call makes, as C passes it, or what is wrong with it.
///
/// # Safety
///
/// The pointer is null or leads to as much as C said.
unsafe fn looked_at<'a>(page: *const u8, length: usize) -> Result<&'a [u8], u32> {
    if page.is_null() && length > 0 {
        return Err(NULL);
    }
    if length > isize::MAX as usize {
        return Err(TOO_LONG);
    }
    // Sound: a text of no bytes may be null, and so its pointer isn't taken.
    Ok(if length == 0 { &[][..] } else { unsafe { from_raw_parts(page, length) } })
}

/// Prints a whole page.
///
/// # Safety
///
/// As the header says of pointers; so for all calls.
#[unsafe(no_mangle)]
pub unsafe extern "C" fn nulbiko_document(
    limits: *const Limits,
    options: *const DocumentOptions,
    input: *const u8,
    length: usize,
    output: *mut u8,
    capacity: usize,
    report: *mut Report,
) -> u32 {
    let passed = Passed { input, length, output, capacity, report };
    // Sound: as the header asks for.
    match unsafe { asked(limits, options) } {
        Ok((setup, macros)) => unsafe {
            passed.call(|page, output, reported| nulbiko_document_lent(Global, &setup, macros, page, output, reported))
        },
        Err(outcome) => unsafe { passed.call(|_, _, _| outcome) },
    }
}

/// Formats a text.
///
/// # Safety
///
/// As the header says.
#[unsafe(no_mangle)]
pub unsafe extern "C" fn nulbiko_format(
    limits: *const Limits,
    options: *const Options,
    input: *const u8,
    length: usize,
    output: *mut u8,
    capacity: usize,
    report: *mut Report,
) -> u32 {
    let passed = Passed { input, length, output, capacity, report };
    // Sound: as the header asks for; each begins with its size.
    unsafe {
        if limits.is_null() || options.is_null() {
            return passed.call(|_, _, _| NULL);
        }
        let (Some(limits), Some(options)) = (Limits::read(limits), Options::read(options)) else {
            return passed.call(|_, _, _| OUT_OF_RANGE);
        };
        passed.call(|input, output, reported| nulbiko_format_lent(Global, &limits, &options, input, output, reported))
    }
}

/// Turns what manual pages use into the language of `nulbiko_format`.
///
/// # Safety
///
/// As the header says.
#[unsafe(no_mangle)]
pub unsafe extern "C" fn nulbiko_preconv(
    table: u32,
    input: *const u8,
    length: usize,
    output: *mut u8,
    capacity: usize,
    report: *mut Report,
) -> u32 {
    let passed = Passed { input, length, output, capacity, report };
    unsafe { passed.call(|input, output, reported| nulbiko_preconv_lent(Global, table, input, output, reported)) }
}

/// Turns a page of mdoc(7) into one of man(7).
///
/// # Safety
///
/// As the header says.
#[unsafe(no_mangle)]
pub unsafe extern "C" fn nulbiko_mdoc(
    input: *const u8,
    length: usize,
    output: *mut u8,
    capacity: usize,
    report: *mut Report,
) -> u32 {
    let passed = Passed { input, length, output, capacity, report };
    unsafe { passed.call(|input, output, reported| nulbiko_mdoc_lent(Global, input, output, reported)) }
}

/// Turns tables into the language of `nulbiko_format`.
///
/// # Safety
///
/// As the header says.
#[unsafe(no_mangle)]
pub unsafe extern "C" fn nulbiko_tbl(
    table: u32,
    line: usize,
    input: *const u8,
    length: usize,
    output: *mut u8,
    capacity: usize,
    report: *mut Report,
) -> u32 {
    let passed = Passed { input, length, output, capacity, report };
    unsafe { passed.call(|input, output, reported| nulbiko_tbl_lent(Global, table, line, input, output, reported)) }
}

/// Turns bytes of a table into its characters.
///
/// # Safety
///
/// As the header says.
#[unsafe(no_mangle)]
pub unsafe extern "C" fn nulbiko_utf8(
    table: u32,
    escapes: bool,
    input: *const u8,
    length: usize,
    output: *mut u8,
    capacity: usize,
    report: *mut Report,
) -> u32 {
    let passed = Passed { input, length, output, capacity, report };
    unsafe { passed.call(|input, output, reported| nulbiko_utf8_lent(Global, table, escapes, input, output, reported)) }
}

/// The table that a page takes.
///
/// # Safety
///
/// As the header says.
#[unsafe(no_mangle)]
pub unsafe extern "C" fn nulbiko_choose(input: *const u8, length: usize) -> u32 {
    if length == 0 {
        return nulbiko_choose_lent(Global, &[]);
    }
    if input.is_null() || length > isize::MAX as usize {
        return 0;
    }
    nulbiko_choose_lent(Global, unsafe { from_raw_parts(input, length) })
}

/// The table that a page takes, which may be one of its own.
///
/// # Safety
///
/// As the header says.
#[unsafe(no_mangle)]
pub unsafe extern "C" fn nulbiko_choose_own(page: *const u8, length: usize) -> u32 {
    // Sound: as the header asks for; so for all that follows.
    unsafe { looked_at(page, length) }.map_or(0, |page| nulbiko_choose_own_lent(Global, page))
}

/// Turns what manual pages use into the language of `nulbiko_format`, with a table of the page's own.
///
/// # Safety
///
/// As the header says.
#[unsafe(no_mangle)]
pub unsafe extern "C" fn nulbiko_preconv_own(
    page: *const u8,
    page_length: usize,
    input: *const u8,
    length: usize,
    output: *mut u8,
    capacity: usize,
    report: *mut Report,
) -> u32 {
    let passed = Passed { input, length, output, capacity, report };
    unsafe {
        let page = looked_at(page, page_length);
        passed.call(|input, output, reported| match page {
            Ok(page) => nulbiko_preconv_own_lent(Global, page, input, output, reported),
            Err(outcome) => outcome,
        })
    }
}

/// Turns tables into the language of `nulbiko_format`, with a table of the page's own.
///
/// # Safety
///
/// As the header says.
#[unsafe(no_mangle)]
pub unsafe extern "C" fn nulbiko_tbl_own(
    page: *const u8,
    page_length: usize,
    line: usize,
    input: *const u8,
    length: usize,
    output: *mut u8,
    capacity: usize,
    report: *mut Report,
) -> u32 {
    let passed = Passed { input, length, output, capacity, report };
    unsafe {
        let page = looked_at(page, page_length);
        passed.call(|input, output, reported| match page {
            Ok(page) => nulbiko_tbl_own_lent(Global, page, line, input, output, reported),
            Err(outcome) => outcome,
        })
    }
}

/// Turns bytes of a page's own table into its characters.
///
/// # Safety
///
/// As the header says.
#[unsafe(no_mangle)]
pub unsafe extern "C" fn nulbiko_utf8_own(
    page: *const u8,
    page_length: usize,
    escapes: bool,
    input: *const u8,
    length: usize,
    output: *mut u8,
    capacity: usize,
    report: *mut Report,
) -> u32 {
    let passed = Passed { input, length, output, capacity, report };
    unsafe {
        let page = looked_at(page, page_length);
        passed.call(|input, output, reported| match page {
            Ok(page) => nulbiko_utf8_own_lent(Global, page, escapes, input, output, reported),
            Err(outcome) => outcome,
        })
    }
}
