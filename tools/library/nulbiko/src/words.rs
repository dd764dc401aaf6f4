//! What calls are given, and what they tell.

use std::{error, fmt};

/// What a text may cost, to [`format()`](crate::format()).
#[derive(Clone, Copy, Debug, PartialEq, Eq)]
#[non_exhaustive]
pub struct Limits {
    /// Bytes stored: texts under names, registers, traps, open levels. 64 to 2^24.
    pub stored: u64,
    /// Open levels of the input. 1 to 4096.
    pub depth: u64,
    /// Cells of a line, and of a page. 1 to 2^24.
    pub cells: u64,
    /// Expansions between two bytes of the text. 1 to 2^32.
    pub expansions: u64,
    /// All moves: a byte of text is two. 64 to 2^64 - 1, which takes thousands of years.
    pub moves: u64,
}

impl Limits {
    /// nroff's own.
    pub const PLAIN: Limits =
        Limits { stored: 262_144, depth: 256, cells: 65_536, expansions: 1_000_000, moves: u64::MAX };

    /// Those for a stranger's page, which ends after seconds.
    pub const OF_STRANGERS: Limits =
        Limits { stored: 262_144, depth: 64, cells: 65_536, expansions: 10_000, moves: 100_000_000 };
}

impl Default for Limits {
    fn default() -> Self {
        Limits::PLAIN
    }
}

/// One of the limits, as a run that ends at it names it.
#[derive(Clone, Copy, Debug, PartialEq, Eq)]
pub enum Limit {
    /// Bytes stored.
    Stored,
    /// Open levels of the input.
    Depth,
    /// Cells of a line.
    LineCells,
    /// Cells of a page.
    PageCells,
    /// Expansions between two bytes of the text.
    Expansions,
    /// All moves.
    Moves,
    /// Bytes that go out of a table at once, to [`document`](crate::document()).
    SetPage,
}

impl Limit {
    /// The limit of a number.
    pub(crate) fn numbered(number: u32) -> Limit {
        match number {
            1 => Limit::Stored,
            2 => Limit::Depth,
            3 => Limit::LineCells,
            4 => Limit::PageCells,
            5 => Limit::Expansions,
            6 => Limit::Moves,
            _ => Limit::SetPage,
        }
    }
}

impl fmt::Display for Limit {
    fn fmt(&self, f: &mut fmt::Formatter<'_>) -> fmt::Result {
        f.write_str(match self {
            Limit::Stored => "stored bytes",
            Limit::Depth => "input depth",
            Limit::LineCells => "line cells",
            Limit::PageCells => "page cells",
            Limit::Expansions => "expansions",
            Limit::Moves => "moves",
            Limit::SetPage => "page with tables",
        })
    }
}

/// A table of characters: bytes from 128 on stand for characters beyond ASCII from [`preconv`](crate::preconv) to
/// [`utf8`](crate::utf8).
#[derive(Clone, Copy, Debug, PartialEq, Eq)]
pub enum Table {
    /// Signs, and Latin-1.
    English = 1,
    /// Letters from Czech to Turkish, and common signs.
    Latin = 2,
    /// Russian's and its neighbours'.
    Cyrillic = 3,
    /// Greek's.
    Greek = 4,
    /// Latin-1 at its own bytes.
    Latin1 = 5,
}

impl Table {
    /// The table of a number.
    pub(crate) fn numbered(number: u32) -> Option<Table> {
        [Table::English, Table::Latin, Table::Cyrillic, Table::Greek, Table::Latin1]
            .into_iter()
            .find(|table| *table as u32 == number)
    }
}

/// The table that a page takes.
#[derive(Clone, Copy, Debug, PartialEq, Eq)]
pub enum Choice {
    /// That of [`choose`](crate::choose).
    Fixed(Table),
    /// One of its own, as [`preconv_own`](crate::preconv_own) makes it.
    Own,
}

/// What characters a page of [`document`](crate::document()) has.
#[derive(Clone, Copy, Debug, PartialEq, Eq)]
pub enum Characters {
    /// Those of the table that [`choose`](crate::choose) gives for it, or in UTF-8 [`choose_own`](crate::choose_own).
    Chosen,
    /// Those of a table.
    Of(Table),
    /// ASCII alone; its form is [`Form::Bytes`].
    Ascii,
}

/// How [`document`](crate::document()) gives its pages.
#[derive(Clone, Copy, Debug, PartialEq, Eq)]
pub enum Form {
    /// As bytes of the table: those of [`format()`](crate::format()).
    Bytes = 0,
    /// In UTF-8: what is underlined or bold has backspaces.
    Utf8 = 1,
    /// In UTF-8, between the terminal's escape sequences.
    Escapes = 2,
}

/// How [`document`](crate::document()) sets a page.
///
/// ```
/// let options = nulbiko::Options { width: 60, ..nulbiko::Options::PAGE };
/// # assert_eq!(options.first, 1);
/// ```
#[derive(Clone, Copy, Debug, PartialEq, Eq)]
pub struct Options {
    /// The number of the first page.
    pub first: i64,
    /// The cells of a line, for the macros (the register `L`) and for tables. A text without macro files begins with `.ll`.
    pub width: u32,
    /// What characters it has.
    pub characters: Characters,
    /// How pages go out.
    pub form: Form,
    /// As [`format()`](crate::format()) has it.
    pub bold: bool,
    /// One long page (the register `C`), in place of pages of 66 lines.
    pub long_page: bool,
    /// A page of mdoc(7) is turned into one of man(7); any other stays as it is.
    pub mdoc: bool,
    /// Tables are set, where a line begins with `.TS`.
    pub tables: bool,
    /// What may be held of a table and of a line of a row, and what may go out of a table at once, in bytes.
    pub held: [usize; 3],
}

impl Options {
    /// One long page of 78 columns in UTF-8.
    pub const PAGE: Options = Options {
        first: 1,
        width: 78,
        characters: Characters::Chosen,
        form: Form::Utf8,
        bold: false,
        long_page: true,
        mdoc: true,
        tables: true,
        held: [1 << 18, 1 << 14, 1 << 24],
    };
}

impl Default for Options {
    fn default() -> Self {
        Options::PAGE
    }
}

/// What is wrong with a table. It is set as well as it can be.
#[derive(Clone, Copy, Debug, PartialEq, Eq)]
pub enum Wrong {
    /// It ends before its formats do.
    NoFormat,
    /// A byte that is no part of a format.
    BadFormat,
    /// An option that is none.
    UnknownOption,
    /// A row has more fields than the table has columns.
    TooManyFields,
    /// A text block has no end.
    OpenBlock,
    /// The text ends inside a table.
    OpenTable,
    /// More than 64 columns or 256 format lines.
    TooManyColumns,
    /// More bytes of options and formats than are held.
    FormatsLimit,
    /// More bytes of a row than are held.
    RowLimit,
    /// The table is wider than the line.
    TooWide,
    /// What follows an option is not one character.
    BadArgument,
    /// A request of a text block that is not set there.
    UnsetRequest,
}

impl Wrong {
    /// What has a number, where it isn't that of nothing.
    pub(crate) fn numbered(number: u32) -> Option<Wrong> {
        Some(match number {
            1 => Wrong::NoFormat,
            2 => Wrong::BadFormat,
            3 => Wrong::UnknownOption,
            4 => Wrong::TooManyFields,
            5 => Wrong::OpenBlock,
            6 => Wrong::OpenTable,
            7 => Wrong::TooManyColumns,
            8 => Wrong::FormatsLimit,
            9 => Wrong::RowLimit,
            10 => Wrong::TooWide,
            11 => Wrong::BadArgument,
            12 => Wrong::UnsetRequest,
            _ => return None,
        })
    }
}

/// Why a call didn't do all.
#[derive(Clone, Copy, Debug, PartialEq, Eq)]
pub enum Why {
    /// The next move would pass the limit; so many bytes of the call's text had been taken.
    Limit(Limit, u64),
    /// A limit or a width is outside its range.
    OutOfRange,
    /// More would come out than was asked for.
    Full,
    /// There was not enough memory.
    OutOfMemory,
    /// The text has 2^40 bytes or more.
    TooLong,
}

/// A call didn't do all.
#[derive(Clone, Debug, PartialEq, Eq)]
pub struct Stopped {
    /// The call: `document`, `run`, `open`, `mdoc`, `preconv`, `tbl`, `format`, `utf8`, `preconv_own`, `tbl_own`, `utf8_own` or
    /// `page`.
    pub call: &'static str,
    /// Why it stopped.
    pub why: Why,
    /// Of `document` and `run`: the line of the page that was read last, counted from 1. Else 0.
    pub line: u64,
    /// What was whole before.
    pub bytes: Vec<u8>,
}

impl fmt::Display for Stopped {
    fn fmt(&self, f: &mut fmt::Formatter<'_>) -> fmt::Result {
        write!(f, "{}: ", self.call)?;
        match self.why {
            Why::Limit(limit, at) if self.line == 0 => write!(f, "{limit} limit passed at byte {at}"),
            Why::Limit(limit, at) => write!(f, "{limit} limit passed at byte {at}, line {}", self.line),
            Why::OutOfRange => f.write_str("out of range"),
            Why::Full => f.write_str("output full"),
            Why::OutOfMemory => f.write_str("out of memory"),
            Why::TooLong => f.write_str("text too long"),
        }
    }
}

impl error::Error for Stopped {}
