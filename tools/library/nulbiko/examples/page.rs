//! Formats a manual page: `cargo run --release --example page -- ls.1`.

use std::io::Write;
use std::{env, fs, process};

fn main() {
    let Some(name) = env::args_os().nth(1) else {
        eprintln!("usage: page FILE");
        process::exit(2);
    };
    let text = fs::read(&name).unwrap_or_else(|error| {
        eprintln!("page: {}: {error}", name.display());
        process::exit(3);
    });
    let (page, status) = match nulbiko::page(&text, 78) {
        Ok(page) => (page, 0),
        Err(stopped) => {
            eprintln!("page: {}: {stopped}", name.display());
            (stopped.bytes, 1)
        }
    };
    if std::io::stdout().write_all(&page).is_err() {
        process::exit(4);
    }
    process::exit(status);
}
