//! A whole manual page.

use crate::calls::document;
use crate::words::{Limits, Options, Stopped, Why};
use std::ops::RangeInclusive;

/// The macros of manual pages: what stands before a page's text where it is formatted.
pub const MAN: &[u8] = include_bytes!("../../../tmac/tmac.an");

/// The widths that a page may have, in cells.
pub const WIDTHS: RangeInclusive<usize> = 10..=1000;

/// Formats a manual page, of man(7) or mdoc(7), as one long page of this width, to UTF-8, under [`Limits::OF_STRANGERS`].
/// Underlined characters stand after `_` and a backspace.
///
/// # Errors
///
/// As [`page_within`].
pub fn page(text: &[u8], width: usize) -> Result<Vec<u8>, Stopped> {
    page_within(text, width, false, &Limits::OF_STRANGERS)
}

/// Formats a manual page as [`page`] does, under these limits, with `bold` as `format` has it.
///
/// # Errors
///
/// Where a width isn't one of [`WIDTHS`], and where [`document`] stops. What was formatted before is in [`Stopped::bytes`].
pub fn page_within(text: &[u8], width: usize, bold: bool, limits: &Limits) -> Result<Vec<u8>, Stopped> {
    let Some(width) = u32::try_from(width).ok().filter(|_| WIDTHS.contains(&width)) else {
        return Err(Stopped { call: "page", why: Why::OutOfRange, line: 0, bytes: Vec::new() });
    };
    document(limits, &Options { width, bold, ..Options::PAGE }, MAN, text).map(|made| made.bytes)
}
