//! What the Rattle source has: the exported functions and every number that a caller may need, under the callers' names.

use crate::functions::{self, Function};
use crate::texts::{between, decimal, Text};
use crate::{Numbers, Sources};
use std::collections::BTreeSet;

pub struct Source {
    pub functions: Vec<Function>,
    /// how long each lent slice is, by parameter: a caller has all of them
    pub sizes: Numbers,
    /// a caller has all of them
    pub refusals: Numbers,
    /// offsets, counts and codes: a caller has those that it uses
    places: Numbers,
}

impl Source {
    pub fn required(&self, name: &str) -> bool {
        self.sizes.contains_key(name) || self.refusals.contains_key(name)
    }

    pub fn number(&self, name: &str) -> Option<&u64> {
        self.sizes.get(name).or_else(|| self.refusals.get(name)).or_else(|| self.places.get(name))
    }
}

pub fn read(texts: &Sources, faults: &mut Vec<String>) -> Source {
    let functions = functions::exported(&texts.exported.text);
    let mut places = constants(&texts.code, faults);
    let sizes = sizes(&functions, &texts.code, &places, faults);
    let mut refusals = refusals(&texts.code);
    for file in &texts.definitions {
        counts(&file.text, &mut places);
    }
    for (name, before, after) in DEFINED {
        let mut lines = texts.definitions.iter().flat_map(|file| file.text.lines());
        match lines.find_map(|line| decimal(line.strip_prefix(before)?.strip_suffix(after)?)) {
            Some(n) if name == "NONE" => refusals.insert(name.to_owned(), n),
            Some(n) => places.insert(name.to_owned(), n),
            None => {
                faults.push(format!("{name}: no definition '{before}..{after}' in the source"));
                None
            }
        };
    }
    Source { functions, sizes, refusals, places }
}

/// Numbers that stand in definitions only: how many bytes a name takes, where a plan has its number of steps, what the verdict
/// answers for a node that conforms and `nearest` for a spare, what stands for no refusal.
const DEFINED: [(&str, &str, &str); 5] = [
    ("NAME", "name_bytes = ", ""),
    ("PLAN_STEPS", "step_count ps = get_or ps ", " 0"),
    ("CONFORMS", "one_if b = cond b ", " 0"),
    ("FOUND", "one_if b = cond b ", " 0"),
    ("NONE", "  refusal_number (value a) = ", ""),
];

/// `pub const NODE_KINDS: usize = 10;`, `pub const NODE_TYPES: usize = NODE_KINDS + MAX_NODES;`
fn constants(code: &[Text], faults: &mut Vec<String>) -> Numbers {
    fn parts(line: &str) -> Option<(&str, &str)> {
        line.strip_prefix("pub const ")?.strip_suffix(';')?.split_once(": usize = ")
    }
    let mut found = Numbers::new();
    let mut left: Vec<_> = code.iter().flat_map(|file| file.text.lines()).filter_map(parts).collect();
    // a constant may stand before those that it is a sum of
    while !left.is_empty() {
        let known: Vec<_> = left.iter().filter_map(|(name, sum)| Some((*name, value(sum, &found)?))).collect();
        if known.is_empty() {
            break;
        }
        left.retain(|(_, sum)| value(sum, &found).is_none());
        for (name, n) in known {
            if found.insert(name.to_owned(), n).is_some_and(|before| before != n) {
                faults.push(format!("{name}: two numbers in the source"));
            }
        }
    }
    found
}

/// A sum of products of numbers and constants, where all of these are known.
fn value(sum: &str, constants: &Numbers) -> Option<u64> {
    let factor = |f: &str| decimal(f).or_else(|| constants.get(f.trim()).copied());
    sum.split('+').map(|product| product.split('*').map(factor).product::<Option<u64>>()).sum()
}

/// A slice's size is the constant that its length is tested against: `PLAN_CELLS <= plan.len()`, `plan.len() < PLAN_CELLS`, and
/// `MAX_BYTES < book.len()` for the longest book.
fn sizes(functions: &[Function], code: &[Text], constants: &Numbers, faults: &mut Vec<String>) -> Numbers {
    let tests: Vec<_> = code.iter().flat_map(|file| length_tests(&file.text)).collect();
    let slices = functions.iter().flat_map(|f| &f.parameters).filter_map(|p| p.strip_suffix("_len: usize"));
    let mut found = Numbers::new();
    for slice in slices.collect::<BTreeSet<_>>() {
        let mut numbers: Vec<_> = tests.iter().filter(|(_, s)| *s == slice).map(|(k, _)| constants.get(*k)).collect();
        numbers.dedup();
        match numbers[..] {
            [Some(&n)] => _ = found.insert(slice.to_uppercase(), n),
            _ => faults.push(format!("{slice}: the source tests its length against {numbers:?}, not against one constant")),
        }
    }
    found
}

/// Each constant and the slice whose length is tested against it.
fn length_tests(text: &str) -> Vec<(&str, &str)> {
    let is_word = |c: char| c.is_ascii_alphanumeric() || c == '_';
    let last = |text: &str| text.trim_end_matches(is_word).len();
    let test = |(at, call): (usize, &str)| {
        let (before, slice) = text[..at].split_at(last(&text[..at]));
        let before = before.trim_end();
        let least = before.strip_suffix("<=").or_else(|| before.strip_suffix('<')).map(str::trim_end);
        let most = text[at + call.len()..].strip_prefix(" < ").and_then(|after| after.split(|c| !is_word(c)).next());
        let constant = least.map(|before| &before[last(before)..]).or(most)?;
        constant.starts_with(|c: char| c.is_ascii_uppercase()).then_some((constant, slice))
    };
    text.match_indices(".len()").filter_map(test).collect()
}

/// `Refusal::Grammar(_) => 2,` in the function `code`. For callers a repeated name is one that is taken.
fn refusals(code: &[Text]) -> Numbers {
    let model = code.iter().find(|file| file.path == "crates/model/src/lib.rt");
    let body = model.and_then(|file| between(&file.text, "pub fn code(", "\n}")).unwrap_or_default();
    let number = |case: &str| {
        let (variant, rest) = case.split_once(" => ")?;
        let name = upper(variant.split('(').next()?).replace("REPEATED", "TAKEN");
        Some((name, decimal(rest.split(',').next()?)?))
    };
    body.split("Refusal::").filter_map(number).collect()
}

/// `node_count cs = get_or cs 0 0` is CELL_NODES.
fn counts(text: &str, places: &mut Numbers) {
    for (name, n) in text.lines().filter_map(|line| line.split_once("_count cs = get_or cs ")) {
        if let Some(n) = n.strip_suffix(" 0").and_then(decimal) {
            places.insert(format!("CELL_{}S", name.to_uppercase()), n);
        }
    }
}

/// `TooLong` is TOO_LONG.
pub fn upper(name: &str) -> String {
    let mut words = String::new();
    for c in name.chars() {
        if c.is_uppercase() && !words.is_empty() {
            words.push('_');
        }
        words.extend(c.to_uppercase());
    }
    words
}
