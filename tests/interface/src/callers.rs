//! The numbers that callers declare, under the names of the header without its prefix.

use crate::source::upper;
use crate::texts::{between, decimal, plain, Text};
use crate::Numbers;

const PREFIX: &str = "MELIVANOUP_";

/// What a header defines, and the refusals that it lists.
pub fn header(file: &Text, faults: &mut Vec<String>) -> Numbers {
    let defined = file.text.lines().filter_map(|line| line.strip_prefix("#define ")).map(plain);
    let mut pairs: Vec<_> = defined.filter_map(|d| d.split_once(' ').map(|(name, n)| (name.to_owned(), n.to_owned()))).collect();
    pairs.extend(variants(&file.text, "enum melivanoup_refusal {"));
    let strip = |name: &str| name.strip_prefix(PREFIX).map_or(format!("{name} without {PREFIX}"), str::to_owned);
    numbers(&file.path, pairs.into_iter().map(|(name, n)| (strip(&name), n)).collect(), faults)
}

/// The constants of the wrapper, and its grounds of refusal.
pub fn wrapper(files: &[Text], faults: &mut Vec<String>) -> Numbers {
    let mut pairs: Vec<_> = files.iter().flat_map(|file| file.text.lines()).filter_map(constant).collect();
    for file in files {
        let grounds = variants(&file.text, "pub enum Ground {");
        let all = between(&file.text, "use Ground::*;", "];").unwrap_or_default();
        for (name, _) in &grounds {
            if !all.split(|c: char| !c.is_alphanumeric()).any(|word| word == name) {
                faults.push(format!("{}: no number gives {name}", file.path));
            }
        }
        pairs.extend(grounds.into_iter().map(|(name, n)| (upper(&name), n)));
        if bare_cell(&file.text) {
            faults.push(format!("{}: a cell by a bare number", file.path));
        }
    }
    numbers("wrapper", pairs, faults)
}

/// `self.cell(5)` would be a place without a name, compared with nothing.
fn bare_cell(text: &str) -> bool {
    text.split(".cell(").skip(1).any(|argument| argument.starts_with(|c: char| c.is_ascii_digit()))
}

/// `pub const BOOK: usize = 65_536;`
fn constant(line: &str) -> Option<(String, String)> {
    let (name, rest) = line.trim().trim_start_matches("pub ").strip_prefix("const ")?.split_once(": ")?;
    let (kind, n) = rest.strip_suffix(';')?.split_once(" = ")?;
    ["usize", "u32"].contains(&kind).then(|| (name.to_owned(), n.to_owned()))
}

/// The names of an enumeration, each with what follows its `=`.
fn variants(text: &str, head: &str) -> Vec<(String, String)> {
    let text = plain(text);
    let body = between(&text, head, "}").unwrap_or_default();
    let cases = body.split(',').map(str::trim).filter(|case| !case.is_empty());
    cases.map(|case| case.split_once(" = ").unwrap_or((case, ""))).map(|(name, n)| (name.to_owned(), n.to_owned())).collect()
}

fn numbers(place: &str, pairs: Vec<(String, String)>, faults: &mut Vec<String>) -> Numbers {
    let mut found = Numbers::new();
    for (name, text) in pairs {
        match decimal(&text) {
            None => faults.push(format!("{place}: {name} is not written as a number")),
            Some(n) if found.insert(name.clone(), n).is_some() => faults.push(format!("{place}: {name} is there twice")),
            Some(_) => (),
        }
    }
    found
}
