//! Books, and what reading them gives. `reader.txt` has the small ones: a line `== title`, then the book; after `=! title` the
//! book lacks its last LF; after `=? title` the tables are written out. The books at the limits are made here.
//!
//! A case writes the answer (the ten counts, or the refusal's number and line) and how many places of names, cells and values
//! are not zero afterwards. No place is zero before.

use melivanoup::{sizes, Tables};
use std::fmt::Write;

/// No place is zero; so many places are more than there must be.
fn full(more: [i64; 3]) -> Tables {
    let [names, cells, values] = more;
    Tables {
        names: vec![9; cases::places(sizes::NAMES, names)],
        cells: vec![9; cases::places(sizes::CELLS, cells)],
        values: vec![9; cases::places(sizes::VALUES, values)],
    }
}

fn used<T: Default + PartialEq>(table: &[T]) -> usize {
    table.iter().filter(|&x| *x != T::default()).count()
}

/// Reads a book, and writes its line.
fn read(written: &mut String, title: &str, book: &[u8], tables: &mut Tables) {
    let answer = match tables.read(book) {
        Ok(counts) => {
            assert_eq!(counts, tables.counts(), "{title}");
            tables.cells[..10].iter().fold("accepted".to_owned(), |text, count| format!("{text} {count}"))
        }
        Err(why) => format!("refused {} {}", why.ground.number(), why.line),
    };
    let [names, cells, values] = [used(&tables.names), used(&tables.cells), used(&tables.values)];
    writeln!(written, "{title}: {answer}; used {names} {cells} {values}").unwrap();
}

/// The places that are not zero.
fn tables_out(written: &mut String, tables: &Tables) {
    for (k, place) in tables.names[..sizes::NAMES].chunks(32).enumerate() {
        let name = String::from_utf8_lossy(place.split(|&b| b == 0).next().unwrap());
        if !name.is_empty() {
            writeln!(written, "  name {} {name}", 32 * k).unwrap();
        }
    }
    for (i, x) in tables.cells.iter().enumerate().filter(|&(_, &x)| x != 0) {
        writeln!(written, "  cell {i} {x}").unwrap();
    }
    for (i, x) in tables.values.iter().enumerate().filter(|&(_, &x)| x != 0) {
        let sign = if *x < 0 { "minus " } else { "" };
        writeln!(written, "  value {i} {sign}{}", x.unsigned_abs()).unwrap();
    }
}

/// The books of `reader.txt`: each from its title on.
fn titled(text: &[u8]) -> Vec<&[u8]> {
    let begins = |i: usize| text[i] == b'=' && (i == 0 || text[i - 1] == b'\n');
    let starts: Vec<usize> = (0..text.len()).filter(|&i| begins(i)).collect();
    let ends = starts.iter().skip(1).copied().chain([text.len()]);
    starts.iter().zip(ends).map(|(&from, to)| &text[from..to]).collect()
}

fn small(written: &mut String) {
    let text = cases::bytes("reader.txt");
    let books = titled(&text);
    assert!(!books.is_empty(), "reader.txt has no book");
    for part in books {
        let end = part.iter().position(|&b| b == b'\n').expect("a title is a line");
        let (title, book) = (std::str::from_utf8(&part[3..end]).expect("a title is text"), &part[end + 1..]);
        let book = if part[1] == b'!' { &book[..book.len() - 1] } else { book };
        let mut tables = full([8, 8, 8]);
        read(written, title, book, &mut tables);
        if part[1] == b'?' {
            tables_out(written, &tables);
        }
    }
}

/// As many as there may be, and one more.
fn limit(written: &mut String, title: &str, most: usize, book: impl Fn(usize) -> String) {
    for count in [most, most + 1] {
        read(written, title, book(count).as_bytes(), &mut full([8, 8, 8]));
    }
}

/// So many lines, with a number of four digits in each.
fn numbered(before: &str, after: &str, count: usize) -> String {
    (0..count).map(|k| format!("{before}{k:04}{after}\n")).collect()
}

fn limits(written: &mut String) {
    let all = [
        ("nodes", 1024, "", "(thing n", ")"),
        ("links", 255, "", "(link n", ")"),
        ("types", 31, "", "(type n", ")"),
        ("langs", 32, "", "(lang n", ")"),
        ("shapes", 64, "", "(shape n", " true)"),
        ("form entries", 37, "(shape s true)\n", "(shape n", " (and true true))"),
        ("path entries", 42, "(shape s (equal (inv a) a))\n", "(shape n", " (equal (seq a a) a))"),
        ("path entries by star and plus", 32, "", "(shape n", " (onelang (star (plus (inv a)))))"),
        ("list items", 32, "", "(shape n", " (closed a a a a))"),
    ];
    for (title, most, head, before, after) in all {
        limit(written, title, most, |count| head.to_owned() + &numbered(before, after, count));
    }
    limit(written, "facts", 4096, |count| format!("(thing x)\n{}", "(fact x a x)\n".repeat(count)));
    limit(written, "rules", 32, |count| format!("(shape s true)\n{}", "(rule s (subjects a))\n".repeat(count)));
    let longest = format!("(thing x)\n{}{}", numbered("(thing n", ")", 890), "(fact x a x)\n".repeat(4082));
    read(written, "65536 bytes", longest.as_bytes(), &mut full([8, 8, 8]));
    read(written, "65537 bytes", format!("{longest}\n").as_bytes(), &mut full([8, 8, 8]));
}

/// Tables that are one place short.
fn short(written: &mut String) {
    let lengths =
        [("names short", [-1, 0, 0]), ("cells short", [0, -1, 0]), ("values short", [0, 0, -1]), ("just long enough", [0, 0, 0])];
    for (title, more) in lengths {
        read(written, title, b"(", &mut full(more));
    }
}

#[test]
fn books_give_their_tables_or_refusals() {
    let mut written = String::new();
    small(&mut written);
    limits(&mut written);
    short(&mut written);
    cases::compare_file("reader", &written);
}
