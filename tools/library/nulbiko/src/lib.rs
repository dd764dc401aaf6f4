//! Manual pages, papers and tables as text for a terminal, under limits: what a text can cost is bounded, and where a limit
//! would be passed the run ends with what was whole before, and says where.
//!
//! ```
//! let page = nulbiko::page(b".TH HELLO 1\n.SH NAME\nhello \\- a page\n", 78)?;
//! assert!(String::from_utf8(page).unwrap().contains("hello - a page"));
//! # Ok::<(), nulbiko::Stopped>(())
//! ```
//!
//! A stranger's text that never ends is stopped:
//!
//! ```
//! use nulbiko::{Limit, Why};
//!
//! let stopped = nulbiko::page(b".de XX\n.XX\n..\n.XX\n", 78).unwrap_err();
//! assert!(matches!(stopped.why, Why::Limit(Limit::Depth, _)));
//! ```
//!
//! [`page`] is [`document`] after the macros of manual pages. What that does in one call stands here by itself too, as the
//! programs of the same names do it: [`choose`], [`mdoc()`], [`preconv`], [`tbl`], [`format()`] and [`utf8`], and with a table of a page's own
//! [`choose_own`], [`preconv_own`], [`tbl_own`] and [`utf8_own`]; and [`Handle`] is `document` for many pages. All of them take a text and give another. They share nothing, open no file, print nothing, and
//! never panic: any number may run at once.
//!
//! The code is that of Nulbiko's programs, without the contracts by which it is proved; `lent` is the library below, over
//! buffers of a caller's.

mod calls;
mod handle;
mod page;
mod words;

pub use calls::{Made, choose, choose_own, document, format, mdoc, preconv, preconv_own, tbl, tbl_own, utf8, utf8_own};
pub use handle::Handle;
pub use page::{MAN, WIDTHS, page, page_within};
pub use words::{Characters, Choice, Form, Limit, Limits, Options, Stopped, Table, Why, Wrong};

/// The version.
pub const VERSION: &str = env!("CARGO_PKG_VERSION");
