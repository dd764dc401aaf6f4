//! The version, and the names of numbers, as texts that end with 0.

use std::ffi::{CStr, c_char};

const OUTCOMES: [&CStr; 7] = [
    c"done",
    c"limit passed",
    c"out of range",
    c"null pointer",
    c"output full",
    c"out of memory",
    c"text too long",
];
const LIMITS: [&CStr; 8] = [
    c"none",
    c"stored bytes",
    c"input depth",
    c"line cells",
    c"page cells",
    c"expansions",
    c"moves",
    c"page with tables",
];
const WRONGS: [&CStr; 13] = [
    c"none",
    c"table without a format",
    c"bad format",
    c"unknown option",
    c"more fields than columns",
    c"text block without an end",
    c"table without an end",
    c"more than 64 columns",
    c"table formats limit passed",
    c"table row limit passed",
    c"table wider than the line",
    c"not one character after an option",
    c"request not set in a text block",
];

/// The name at a place.
fn name(names: &[&'static CStr], place: u32) -> *const c_char {
    let found = usize::try_from(place).ok().and_then(|place| names.get(place));
    found.unwrap_or(&c"unknown").as_ptr()
}

/// The version of the library.
#[unsafe(no_mangle)]
pub extern "C" fn nulbiko_version() -> *const c_char {
    concat!(env!("CARGO_PKG_VERSION"), "\0").as_ptr().cast()
}

/// The name of an outcome.
#[unsafe(no_mangle)]
pub extern "C" fn nulbiko_outcome_name(outcome: u32) -> *const c_char {
    name(&OUTCOMES, outcome)
}

/// The name of a limit.
#[unsafe(no_mangle)]
pub extern "C" fn nulbiko_limit_name(limit: u32) -> *const c_char {
    name(&LIMITS, limit)
}

/// The name of what is wrong with a table.
#[unsafe(no_mangle)]
pub extern "C" fn nulbiko_wrong_name(wrong: u32) -> *const c_char {
    name(&WRONGS, wrong)
}
