//! books timed|slow FOLDER: writes the books that are timed beside other systems, or those made to be slow, and prints their names.

use std::fs;

fn main() {
    let words: Vec<String> = std::env::args().skip(1).collect();
    let words: Vec<&str> = words.iter().map(String::as_str).collect();
    let (books, folder) = match words[..] {
        ["timed", folder] => (books::timed(), folder),
        ["slow", folder] => (books::slow(), folder),
        _ => panic!("see bench/books/src/main.rs"),
    };
    for (name, text) in books {
        fs::write(format!("{folder}/{name}.book"), text).unwrap();
        println!("{name}");
    }
}
