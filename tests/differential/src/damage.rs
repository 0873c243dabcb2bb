//! Wrong words, and texts damaged in one place.

use crate::random::Random;

/// Words that stand somewhere in a book, and some that never do.
pub const WORDS: [&str; 66] = [
    "(link", "(type", "(lang", "(thing", "(blank", "(number", "(text", "(words", "(fact", "(shape", "(rule", "(is", "(and",
    "(or", "(not", "(kind", "(datatype", "(from", "(above", "(to", "(below", "(count", "(all", "(equal", "(apart", "(closed",
    "(less", "(lesseq", "(onelang", "(inv", "(seq", "(alt", "(star", "(plus", "(node", "(subjects", "(objects", "(class", "(",
    ")", "true", "id", "a", "langstring", "thing", "literal", "*", "0", "1", "00", "1024", "1025", "-0", "+1", "-1",
    "9223372036854775807", "9223372036854775808", "-9223372036854775808", "-9223372036854775809", "99999999999999999999999", "b",
    "c", "d", "n0", "abcdefghijklmnopqrstuvwxyz01234", "abcdefghijklmnopqrstuvwxyz012345",
];

/// Numbers at the limits, and words that are hardly numbers.
pub const NUMBERS: [&str; 14] = [
    "0", "1", "-1", "00", "01", "-0", "+1", "-", "1024", "1025", "9223372036854775807", "9223372036854775808",
    "-9223372036854775808", "-9223372036854775809",
];

/// Lines of any words.
pub fn tokens(r: &Random) -> Vec<u8> {
    let mut text = String::new();
    for _ in 0..r.between(0, 12) {
        let start =
            r.pick(&["(link b", "(type c", "(thing d", "(thing b", "(blank n0", "(shape b true", "(shape c (", "(rule b (", ""]);
        text.push_str(start);
        for _ in 0..r.below(6) {
            text.push_str(r.pick(&[" ", " ", " ", "", ")", "  "]));
            text.push_str(r.pick(&WORDS));
        }
        text.push_str(r.pick(&[")", ")", "))", ")))", ""]));
        text.push_str(r.pick(&["\n", "\n", "\n", "\n", "", "\r\n", " \n"]));
    }
    text.into_bytes()
}

/// Where the items of a text begin and end.
fn items(text: &[u8]) -> Vec<(usize, usize)> {
    let mut found = Vec::new();
    let mut at = 0;
    while at < text.len() {
        let from = at;
        at += 1;
        if !matches!(text[from], b' ' | b'\n' | b')') {
            while at < text.len() && !matches!(text[at], b' ' | b'\n' | b'(' | b')') {
                at += 1;
            }
        }
        found.push((from, at));
    }
    found
}

/// Changes a text in one place, oftener near its end.
pub fn damage(r: &Random, text: &mut Vec<u8>) {
    if text.is_empty() {
        return text.extend(r.pick(&WORDS).bytes());
    }
    let from = if r.once_in(2) { text.len() - text.len().min(200) } else { 0 };
    let at = r.between(from, text.len() - 1);
    match r.below(16) {
        0 => text[at] = r.next() as u8,
        1 => text[at] = r.pick(b" ()\n-*0a"),
        2 => drop(text.remove(at)),
        3 => text.insert(at, r.pick(b" ()\n-*0a")),
        4 => text.truncate(at),
        5 => drop(text.pop()),
        6 => text.extend(text[at..].to_vec()),
        7 | 8 => lines(r, text),
        9 | 10 => number(r, text),
        _ => {
            let here = items(&text[from..]);
            let (a, b) = r.pick(&here);
            let (c, d) = r.pick(&here);
            let word = match r.below(4) {
                0 => Vec::new(),
                1 => text[from + c..from + d].to_vec(),
                _ => r.pick(&WORDS).as_bytes().to_vec(),
            };
            text.splice(from + a..from + b, word);
        }
    }
}

/// A number in the place of another.
fn number(r: &Random, text: &mut Vec<u8>) {
    let is_number = |&(a, b): &(usize, usize)| text[a..b].iter().all(|c| matches!(c, b'0'..=b'9' | b'-' | b'*'));
    let numbers: Vec<(usize, usize)> = items(text).into_iter().filter(is_number).collect();
    if !numbers.is_empty() {
        let (a, b) = r.pick(&numbers);
        text.splice(a..b, r.pick(&NUMBERS).bytes());
    }
}

/// A line gone, said twice, or moved.
fn lines(r: &Random, text: &mut Vec<u8>) {
    let mut lines: Vec<Vec<u8>> = text.split_inclusive(|&b| b == b'\n').map(<[u8]>::to_vec).collect();
    let k = if r.once_in(2) { r.below(lines.len()) } else { lines.len() - 1 };
    let line = lines.remove(k);
    let (i, j) = (r.between(0, lines.len()), r.between(0, lines.len()));
    match r.below(3) {
        0 => {}
        1 => lines.insert(i, line),
        _ => {
            lines.insert(i, line.clone());
            lines.insert(j, line);
        }
    }
    *text = lines.concat();
}
