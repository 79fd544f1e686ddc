//! The Rust crate html2text as a program: writes the text of the page on standard input, wrapped to 80 columns.
use std::io::{self, Write};

fn main() -> io::Result<()> {
    let text = html2text::from_read(io::stdin().lock(), 80);
    io::stdout().lock().write_all(text.as_bytes())
}
