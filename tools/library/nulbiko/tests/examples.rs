//! The examples of nroff, through the library: each input gives the pages that it must give.

use nulbiko::{Choice, Form, Handle, Limits, MAN, Options, Stopped, Why};
use std::fs;
use std::path::{Path, PathBuf};

fn folder() -> PathBuf {
    Path::new(env!("CARGO_MANIFEST_DIR")).join("../../examples")
}

#[test]
fn examples_give_their_pages() {
    let names = fs::read_to_string(folder().join("examples")).expect("the list of examples");
    let mut failed = Vec::new();
    for name in names.split_whitespace() {
        let text = fs::read(folder().join(format!("{name}.roff"))).expect("an input");
        let pages = fs::read(folder().join(format!("{name}.out"))).expect("its pages");
        match nulbiko::format(&Limits::PLAIN, 1, false, &text) {
            Ok(made) if made.bytes == pages => {}
            _ => failed.push(name),
        }
    }
    assert!(failed.is_empty(), "other pages: {failed:?}");
}

#[test]
fn a_page_is_stopped_at_its_limits() {
    let page = b".TH A 1\n.SH NAME\na \\- b\n.de XX\n.XX\n..\n.XX\n";
    let Err(Stopped { call: "document", why: Why::Limit(_, at), line, .. }) = nulbiko::page(page, 78) else {
        panic!("it went on");
    };
    assert!(at > 0 && at <= page.len() as u64, "the place is {at}");
    assert_eq!(line, 7);
}

#[test]
fn a_handle_prints_what_a_document_is() {
    let limits = Limits::OF_STRANGERS;
    let mut handle = Handle::open(&limits, &Options::PAGE, MAN).expect("a handle");
    for text in [WHOLE, b".de XX\n.XX\n..\n.XX\n", "日本\n".as_bytes(), b"", WHOLE] {
        match (handle.run(text), nulbiko::document(&limits, &Options::PAGE, MAN, text)) {
            (Ok(made), Ok(wanted)) => assert_eq!(made, wanted),
            (Err(stopped), Err(wanted)) => assert_eq!(stopped, Stopped { call: "run", ..wanted }),
            (made, wanted) => panic!("{made:?} in place of {wanted:?}"),
        }
    }
    let mut shallow = limits;
    shallow.depth = 0;
    let none = Handle::open(&shallow, &Options::PAGE, MAN).unwrap_err();
    assert_eq!((none.call, none.why), ("open", Why::OutOfRange));
    std::thread::spawn(move || handle.run(WHOLE).map(drop)).join().expect("a thread").expect("a page");
}

/// A page with a table, characters and a macro of its own.
const WHOLE: &[u8] = ".TH A 1\n.SH NAME\na \\- b – \\fIcodé\\fP\n.TS\nbox;\nl l.\na\tb\n.TE\n.Dd x\n".as_bytes();

#[test]
fn a_document_is_its_stages_in_order() {
    let table = nulbiko::choose(WHOLE);
    let turned = nulbiko::preconv(table, &nulbiko::mdoc(WHOLE).unwrap().bytes).unwrap().bytes;
    let mut whole = b".nr L 78\n.nr C 1\n".to_vec();
    whole.extend_from_slice(nulbiko::MAN);
    whole.extend_from_slice(&nulbiko::tbl(table, 78, &turned).unwrap().bytes);
    for (bold, form) in [(false, Form::Bytes), (true, Form::Bytes), (false, Form::Utf8), (true, Form::Escapes)] {
        let pages = nulbiko::format(&Limits::PLAIN, 1, bold, &whole).unwrap().bytes;
        let wanted = match form {
            Form::Bytes => pages,
            _ => nulbiko::utf8(table.unwrap(), form == Form::Escapes, &pages).unwrap().bytes,
        };
        let options = Options { bold, form, ..Options::PAGE };
        let made = nulbiko::document(&Limits::PLAIN, &options, nulbiko::MAN, WHOLE).unwrap();
        assert_eq!(made.bytes, wanted);
    }
}

/// Pages with tables of their own, in Czech and in Japanese.
const NATIVE: [&str; 2] = [
    ".TH A 1\n.SH NÁZEV\nA \\- překlad, \\fIřeč\\fP a “Ťuk”\n.TS\nbox;\nl l.\nž\tŇ\n.TE\n",
    ".Dd 2026\n.Dt A 1\n.Os\n.Sh 名前\n.Nm ls\n.Nd 一覧、Ř\n.TS\nbox;\nl.\n日本\n.TE\n",
];

#[test]
fn a_page_with_its_own_table_is_its_stages_in_order() {
    for page in NATIVE.map(str::as_bytes) {
        assert_eq!(nulbiko::choose_own(page), Some(Choice::Own));
        let turned = nulbiko::preconv_own(page, &nulbiko::mdoc(page).unwrap().bytes).unwrap().bytes;
        let mut whole = b".nr L 78\n.nr C 1\n".to_vec();
        whole.extend_from_slice(nulbiko::MAN);
        whole.extend_from_slice(&nulbiko::tbl_own(page, 78, &turned).unwrap().bytes);
        for (bold, form) in [(false, Form::Utf8), (true, Form::Utf8), (true, Form::Escapes)] {
            let pages = nulbiko::format(&Limits::PLAIN, 1, bold, &whole).unwrap().bytes;
            let wanted = nulbiko::utf8_own(page, form == Form::Escapes, &pages).unwrap().bytes;
            let options = Options { bold, form, ..Options::PAGE };
            let made = nulbiko::document(&Limits::PLAIN, &options, nulbiko::MAN, page).unwrap();
            assert_eq!(made.bytes, wanted);
        }
    }
    assert_eq!(nulbiko::choose_own(WHOLE), nulbiko::choose(WHOLE).map(Choice::Fixed));
}

#[test]
fn widths_are_looked_at() {
    for width in [0, 9, 1001, usize::MAX] {
        assert_eq!(nulbiko::page(b"a\n", width).unwrap_err().why, Why::OutOfRange);
    }
}

#[test]
fn any_bytes_give_a_page_or_stop() {
    let all: Vec<u8> = (0..=255).collect();
    for text in [&all[..], &[0xff; 300], b"", b".", b".TS\n", b"\\"] {
        let page = nulbiko::page(text, 78).unwrap_or_else(|stopped| stopped.bytes);
        assert!(String::from_utf8(page).is_ok());
    }
}
