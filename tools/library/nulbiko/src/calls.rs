//! Calls over texts that are given and made.

use crate::words::{Characters, Choice, Limit, Limits, Options, Stopped, Table, Why, Wrong};
use kit::alloc::Global;
use nulbiko_lent::document::nulbiko_document_lent;
use nulbiko_lent::formatting::nulbiko_format_lent;
use nulbiko_lent::looked::nulbiko_choose_own_lent;
use nulbiko_lent::mdoc::nulbiko_mdoc_lent;
use nulbiko_lent::preconv::nulbiko_preconv_lent;
use nulbiko_lent::staged::{nulbiko_preconv_own_lent, nulbiko_utf8_own_lent};
use nulbiko_lent::tbl::{nulbiko_tbl_lent, nulbiko_tbl_own_lent};
use nulbiko_lent::utf8::{nulbiko_choose_lent, nulbiko_utf8_lent};
use nulbiko_lent::{DocumentOptions, DocumentSetup, Report, TableLimits, TextLimits, TextOptions};

/// The most bytes that a call makes: 64 MiB.
const MOST: usize = 1 << 26;

const NOTHING: Report = Report { written: 0, at: 0, moves: 0, limit: 0, dropped: 0, line: 0 };
const CHOSEN: u32 = 6;
const OWN: u32 = 8;
const FULL: u32 = 4;

/// What a call made.
#[derive(Clone, Debug, PartialEq, Eq)]
#[non_exhaustive]
pub struct Made {
    /// The text that came out.
    pub bytes: Vec<u8>,
    /// Moves or steps that were made; [`tbl`] counts none, nor do the calls with a page's own table.
    pub moves: u64,
    /// Of [`tbl`]: what was wrong first, and on which line, counted from 1.
    pub wrong: Option<(Wrong, u64)>,
    /// Of [`utf8`] and [`document`]: bytes that are no character, which became nothing.
    pub dropped: u64,
}

/// Calls with an output that is doubled as long as it is too small.
pub(crate) fn made(
    call: &'static str,
    text: &[u8],
    mut run: impl FnMut(&mut [u8], &mut Report) -> u32,
) -> Result<(Vec<u8>, Report), Stopped> {
    let mut capacity = text.len().saturating_mul(2).saturating_add(8192).min(MOST);
    loop {
        let mut bytes = Vec::new();
        if bytes.try_reserve_exact(capacity).is_err() {
            return Err(Stopped { call, why: Why::OutOfMemory, line: 0, bytes });
        }
        bytes.resize(capacity, 0);
        let mut report = NOTHING;
        let outcome = run(&mut bytes, &mut report);
        if outcome == FULL && capacity < MOST {
            capacity = (2 * capacity).min(MOST);
            continue;
        }
        bytes.truncate(report.written);
        let why = match outcome {
            0 => return Ok((bytes, report)),
            1 => Why::Limit(Limit::numbered(report.limit), report.at),
            FULL => Why::Full,
            5 => Why::OutOfMemory,
            6 => Why::TooLong,
            _ => Why::OutOfRange,
        };
        return Err(Stopped { call, why, line: report.line, bytes });
    }
}

/// What was made, where nothing of tables is reported.
pub(crate) fn plain((bytes, report): (Vec<u8>, Report)) -> Made {
    Made { bytes, moves: report.moves, wrong: None, dropped: report.dropped }
}

impl Limits {
    /// The limits as the library below has them.
    fn lent(&self) -> TextLimits {
        let Limits { stored, depth, cells, expansions, moves } = *self;
        TextLimits { stored, depth, cells, expansions, moves }
    }
}

/// How a page is set, as the library below has it.
pub(crate) fn setup_of(limits: &Limits, options: &Options) -> DocumentSetup {
    let Options { first, width, characters, form, bold, long_page: long, mdoc, tables, held } = *options;
    let [formats, row, page] = held;
    let table = match characters {
        Characters::Chosen => CHOSEN,
        Characters::Of(table) => table as u32,
        Characters::Ascii => 0,
    };
    DocumentSetup {
        limits: limits.lent(),
        tables: TableLimits { formats, row, page },
        options: DocumentOptions {
            text: TextOptions { first, bold },
            width,
            table,
            form: form as u32,
            long,
            mdoc,
            tables,
        },
    }
}

/// Prints a whole page after its macros, as [`MAN`](crate::MAN): [`mdoc()`], [`preconv`], [`tbl`], [`format()`] and [`utf8`] in one
/// call, over the text of the page under its coding.
///
/// # Errors
///
/// Where a limit would be passed, is out of range, there isn't enough memory, or more than 64 MiB come out. The place of a
/// limit is counted in what the formatter reads after the macros, and 0 where it is in them.
pub fn document(limits: &Limits, options: &Options, macros: &[u8], text: &[u8]) -> Result<Made, Stopped> {
    let setup = setup_of(limits, options);
    made("document", text, |output, report| nulbiko_document_lent(Global, &setup, macros, text, output, report)).map(plain)
}

/// The table that a page takes, by the first 65,536 bytes of its text, read under its coding as [`preconv`] reads it: never
/// [`Table::Latin1`]. None where there was no memory.
#[must_use]
pub fn choose(text: &[u8]) -> Option<Table> {
    Table::numbered(nulbiko_choose_lent(Global, text))
}

/// Turns a page of mdoc(7) into one of man(7), and leaves any other text as it is. It stands before [`preconv`].
///
/// # Errors
///
/// Where there isn't enough memory, or more than 64 MiB come out; so for all calls.
pub fn mdoc(text: &[u8]) -> Result<Made, Stopped> {
    made("mdoc", text, |output, report| nulbiko_mdoc_lent(Global, text, output, report)).map(plain)
}

/// Turns what manual pages use into the language of [`format()`]. The text is read under its coding: as UTF-8, as UTF-16 behind
/// its mark, or as the set of eight bits that its first two lines name. Characters of the table become its bytes, which [`utf8`]
/// turns back with the same table; without one all is spelled in ASCII.
///
/// # Errors
///
/// As [`mdoc()`].
pub fn preconv(table: Option<Table>, text: &[u8]) -> Result<Made, Stopped> {
    let number = table.map_or(0, |table| table as u32);
    made("preconv", text, |output, report| nulbiko_preconv_lent(Global, number, text, output, report)).map(plain)
}

/// Turns tables into the language of [`format()`], for a line of so many cells. Boxes are drawn with the characters of the table,
/// where it has them: give it that of [`preconv`]. What is wrong with a table is no error: [`Made::wrong`] tells it.
///
/// # Errors
///
/// As [`mdoc()`].
pub fn tbl(table: Option<Table>, line: usize, text: &[u8]) -> Result<Made, Stopped> {
    let number = table.map_or(0, |table| table as u32);
    made("tbl", text, |output, report| nulbiko_tbl_lent(Global, number, line, text, output, report)).map(set)
}

/// What was made of tables.
fn set((bytes, report): (Vec<u8>, Report)) -> Made {
    Made { bytes, moves: 0, wrong: Wrong::numbered(report.limit).map(|wrong| (wrong, report.at)), dropped: 0 }
}

/// Formats a text, as nroff does. Macro files, as [`MAN`](crate::MAN), stand at its front: it opens no file. The first page has
/// this number. With `bold` each cell but a blank is shown as it looks: underlined as `_`, a backspace and itself, bold as
/// itself, a backspace and itself; else letters and digits of ASCII are underlined alone.
///
/// # Errors
///
/// Where a limit would be passed, or is out of range, and as [`mdoc()`].
pub fn format(limits: &Limits, first: i64, bold: bool, text: &[u8]) -> Result<Made, Stopped> {
    let limits = limits.lent();
    let options = TextOptions { first, bold };
    made("format", text, |output, report| nulbiko_format_lent(Global, &limits, &options, text, output, report))
        .map(plain)
}

/// Turns bytes of a table into its characters, in UTF-8, after [`format()`]. With `escapes` underlined text stands between the
/// terminal's escape sequences, and else after `_` and a backspace. Whatever comes, no other control character goes out but
/// newline.
///
/// # Errors
///
/// As [`mdoc()`].
pub fn utf8(table: Table, escapes: bool, text: &[u8]) -> Result<Made, Stopped> {
    made("utf8", text, |output, report| nulbiko_utf8_lent(Global, table as u32, escapes, text, output, report))
        .map(plain)
}

/// The table that [`document`] gives a page in UTF-8: one of its own where that of [`choose`] lacks a letter with its marks that
/// the page prints. None where there was no memory.
#[must_use]
pub fn choose_own(page: &[u8]) -> Option<Choice> {
    match nulbiko_choose_own_lent(Global, page) {
        OWN => Some(Choice::Own),
        number => Table::numbered(number).map(Choice::Fixed),
    }
}

/// [`preconv`] with a table of the page's own, of what its first 512 KiB print, as it was before [`mdoc()`].
///
/// # Errors
///
/// As [`mdoc()`].
pub fn preconv_own(page: &[u8], text: &[u8]) -> Result<Made, Stopped> {
    made("preconv_own", text, |output, report| nulbiko_preconv_own_lent(Global, page, text, output, report)).map(plain)
}

/// [`tbl`] with boxes of that table.
///
/// # Errors
///
/// As [`mdoc()`].
pub fn tbl_own(page: &[u8], line: usize, text: &[u8]) -> Result<Made, Stopped> {
    made("tbl_own", text, |output, report| nulbiko_tbl_own_lent(Global, page, line, text, output, report)).map(set)
}

/// [`utf8`] of the bytes of that table.
///
/// # Errors
///
/// As [`mdoc()`].
pub fn utf8_own(page: &[u8], escapes: bool, text: &[u8]) -> Result<Made, Stopped> {
    made("utf8_own", text, |output, report| nulbiko_utf8_own_lent(Global, page, escapes, text, output, report)).map(plain)
}
