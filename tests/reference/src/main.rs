//! The printing program of document 01: a book on standard input, its report on standard output.
use std::io::{Read, Write};

fn main() {
    let mut text = Vec::new();
    std::io::stdin().read_to_end(&mut text).unwrap();
    std::io::stdout().write_all(&reference::report(&text)).unwrap();
}
