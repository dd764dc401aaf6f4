//! The structs of include/nulbiko.h, each with its size in front.

use nulbiko_lent::{DocumentOptions as Lent, DocumentSetup, Report as Reported, TableLimits, TextLimits, TextOptions};

/// Nothing is reported.
pub(crate) const NOTHING: Reported = Reported { written: 0, at: 0, moves: 0, limit: 0, dropped: 0, line: 0 };

/// What a text may cost.
#[repr(C)]
pub struct Limits {
    size: usize,
    stored: u64,
    depth: u64,
    cells: u64,
    expansions: u64,
    moves: u64,
}

impl Limits {
    /// The limits that C passes, or none where their size isn't known.
    ///
    /// # Safety
    ///
    /// The pointer leads to as many bytes as stand there as size.
    pub(crate) unsafe fn read(passed: *const Limits) -> Option<TextLimits> {
        if unsafe { (&raw const (*passed).size).read() } != size_of::<Limits>() {
            return None;
        }
        let Limits { stored, depth, cells, expansions, moves, .. } = unsafe { passed.read() };
        Some(TextLimits { stored, depth, cells, expansions, moves })
    }
}

/// What a run is given beside its text and its limits.
#[repr(C)]
pub struct Options {
    size: usize,
    first: i64,
    bold: bool,
}

impl Options {
    /// The options that C passes, or none where their size isn't known.
    ///
    /// # Safety
    ///
    /// The pointer leads to as many bytes as stand there as size.
    pub(crate) unsafe fn read(passed: *const Options) -> Option<TextOptions> {
        if unsafe { (&raw const (*passed).size).read() } != size_of::<Options>() {
            return None;
        }
        let Options { first, bold, .. } = unsafe { passed.read() };
        Some(TextOptions { first, bold })
    }
}

/// How a page is set, and what its tables may use.
#[repr(C)]
pub struct DocumentOptions {
    size: usize,
    pub(crate) macros: *const u8,
    pub(crate) macros_length: usize,
    first: i64,
    width: u32,
    table: u32,
    form: u32,
    bold: bool,
    long_page: bool,
    mdoc: bool,
    tables: bool,
    formats: usize,
    row: usize,
    set_page: usize,
}

impl DocumentOptions {
    /// The options that C passes, or none where their size isn't known.
    ///
    /// # Safety
    ///
    /// The pointer leads to as many bytes as stand there as size.
    pub(crate) unsafe fn read(passed: *const DocumentOptions) -> Option<DocumentOptions> {
        if unsafe { (&raw const (*passed).size).read() } != size_of::<DocumentOptions>() {
            return None;
        }
        Some(unsafe { passed.read() })
    }

    /// What is asked for under these limits.
    pub(crate) fn under(&self, limits: TextLimits) -> DocumentSetup {
        DocumentSetup {
            limits,
            tables: TableLimits { formats: self.formats, row: self.row, page: self.set_page },
            options: Lent {
                text: TextOptions { first: self.first, bold: self.bold },
                width: self.width,
                table: self.table,
                form: self.form,
                long: self.long_page,
                mdoc: self.mdoc,
                tables: self.tables,
            },
        }
    }
}

/// What a call tells.
#[repr(C)]
pub struct Report {
    pub(crate) size: usize,
    written: usize,
    at: u64,
    moves: u64,
    limit: u32,
    dropped: u64,
    line: u64,
}

impl Report {
    /// A report of what was reported.
    pub(crate) fn of(reported: &Reported) -> Report {
        Report {
            size: size_of::<Report>(),
            written: reported.written,
            at: reported.at,
            moves: reported.moves,
            limit: reported.limit,
            dropped: reported.dropped,
            line: reported.line,
        }
    }
}
