//! Changes planted in copies of the texts, one at a time: every one must be reported. The places are found here by plain search
//! and not by the code under test, so that what that code overlooks is planted too.

use interface::{compare, Sources, Text};
use std::ops::Range;
use std::path::Path;

/// A file, what was changed in it, and its text afterwards.
struct Change {
    path: String,
    what: String,
    text: String,
}

/// The changes of one file.
struct Planter<'a> {
    file: &'a Text,
    changes: Vec<Change>,
}

impl<'a> Planter<'a> {
    fn new(file: &'a Text) -> Planter<'a> {
        Planter { file, changes: Vec::new() }
    }

    /// Puts other words at a place.
    fn plant(&mut self, place: Range<usize>, words: &str) {
        let text = &self.file.text;
        let what = format!("{:?} for {:?}", words, &text[place.clone()]);
        self.changes.push(Change {
            path: self.file.path.clone(),
            what,
            text: [&text[..place.start], words, &text[place.end..]].concat(),
        });
    }

    /// One more than the number at a place.
    fn increase(&mut self, place: Range<usize>) {
        let number: u64 = self.file.text[place.clone()].replace('_', "").parse().unwrap();
        self.plant(place, &(number + 1).to_string());
    }
}

/// The lines of a text, each with its place.
fn lines(text: &str) -> impl Iterator<Item = (usize, &str)> {
    text.split_inclusive('\n').scan(0, |at, line| {
        *at += line.len();
        Some((*at - line.len(), line))
    })
}

fn is_word(c: char) -> bool {
    c.is_ascii_alphanumeric() || c == '_'
}

/// The place of the first word in a range that passes a test.
fn word(text: &str, range: Range<usize>, test: impl Fn(&str) -> bool) -> Option<Range<usize>> {
    let mut at = range.start;
    while let Some(start) = text[at..range.end].find(is_word).map(|k| at + k) {
        let end = text[start..range.end].find(|c| !is_word(c)).map_or(range.end, |k| start + k);
        if test(&text[start..end]) {
            return Some(start..end);
        }
        at = end;
    }
    None
}

fn is_number(word: &str) -> bool {
    word.starts_with(|c: char| c.is_ascii_digit())
}

// ---- numbers

/// A line that gives a name its number: `#define MELIVANOUP_ROW 1024`, `pub const ROW: usize = 1_024;`, `TooLong = 1,`.
fn gives_number(line: &str) -> bool {
    let line = line.trim_start();
    let constant = line.trim_start_matches("pub ").starts_with("const ") || line.starts_with("#define ");
    let variant = line.split_once(" = ").is_some_and(|(name, n)| name.chars().all(is_word) && is_number(n));
    constant || variant
}

/// The places of the names and numbers that a text gives.
fn numbers(text: &str) -> Vec<(Range<usize>, Range<usize>)> {
    let place = |(at, line): (usize, &str)| {
        let range = at..at + line.len();
        let name = word(text, range.clone(), |w| !["define", "pub", "const"].contains(&w))?;
        let number = word(text, name.end..range.end, is_number)?;
        gives_number(line).then_some((name, number))
    };
    lines(text).filter_map(place).collect()
}

/// Each number one more; each left out, with its line; each under another name; each exchanged with the next.
fn change_numbers(file: &Text) -> Vec<Change> {
    let mut planter = Planter::new(file);
    let places = numbers(&file.text);
    for (k, (name, number)) in places.iter().enumerate() {
        planter.increase(number.clone());
        let (line, whole) = lines(&file.text).find(|(at, line)| at + line.len() > name.start).unwrap();
        planter.plant(line..line + whole.len(), "");
        planter.plant(name.end..name.end, "X");
        planter.plant(name.start..name.start, "X");
        let text = |place: &Range<usize>| &file.text[place.clone()];
        if let Some((_, next)) = places.get(k + 1).filter(|(_, next)| text(next) != text(number)) {
            let middle = &file.text[number.end..next.start];
            planter.plant(number.start..next.end, &[text(next), middle, text(number)].concat());
        }
    }
    planter.changes
}

/// A place without its name, and a ground that no number gives.
fn change_uses(file: &Text) -> Vec<Change> {
    let mut planter = Planter::new(file);
    let text = &file.text;
    for (at, call) in text.match_indices(".cell(") {
        planter.plant(word(text, at + call.len()..text.len(), |_| true).unwrap(), "5");
    }
    if let Some(start) = text.find("let all = [") {
        let end = start + text[start..].find(']').unwrap();
        let mut at = start + "let all = [".len();
        while let Some(ground) = word(text, at..end, |_| true) {
            at = ground.end;
            planter.plant(ground, "");
        }
    }
    planter.changes
}

/// In the source: the constants, cases and definitions that callers depend on, by how their lines begin.
const DEPENDED: [&str; 37] = [
    "pub const NAMES:", "pub const CELLS:", "pub const VALUES:", "pub const PLAN_CELLS:", "pub const WORK_WORDS:",
    "pub const LIST_PLACES:", "pub const LENGTH_PLACES:", "pub const PAGE_BYTES:", "pub const SHAPE_NAMES:",
    "pub const RULE_SHAPES:", "pub const NODE_KINDS:", "pub const NODE_TYPES:", "pub const NAME_BYTES:",
    "pub const BREAK_BYTES:", "pub const MAX_BYTES:", "pub const MAX_NODES:", "pub const MAX_LINKS:", "pub const MAX_TYPES:",
    "pub const MAX_LANGS:", "pub const MAX_SHAPES:", "pub const MAX_RULES:", "pub const MAX_FACTS:", "pub const MAX_FORMS:",
    "pub const MAX_PATHS:", "pub const MAX_ITEMS:", "pub const MAX_NAME:", "pub const MAX_STEPS:", "node_count cs =",
    "shape_count cs =", "fact_count cs =", "path_count cs =", "rule_count cs =", "step_count ps =", "name_bytes =",
    "  refusal_number (value a) =", "one_if b =", "        Refusal::",
];

/// Each number that callers depend on one more, and each sum; each test of a length against another constant.
fn change_source(file: &Text) -> Vec<Change> {
    let mut planter = Planter::new(file);
    let text = &file.text;
    for (at, line) in lines(text) {
        let Some(equals) = line.find('=').filter(|_| DEPENDED.iter().any(|start| line.starts_with(start))) else { continue };
        // the lines of the refusals stand beside their numbers: 0 there is no number of a refusal
        let is_one = |w: &str| is_number(w) && !(w == "0" && line.contains("=>"));
        if let Some(number) = word(text, at + equals..at + line.len(), is_one) {
            planter.increase(number);
        } else if let Some(end) = line.rfind(';') {
            planter.plant(at + end..at + end, " + 1");
        }
    }
    let sized = ["PLAN_CELLS", "WORK_WORDS", "LIST_PLACES", "LENGTH_PLACES", "PAGE_BYTES", "NAMES", "CELLS", "VALUES"];
    for (at, line) in lines(text).filter(|(_, line)| line.contains(".len()") && line.contains('<')) {
        let mut start = at;
        let tested = |w: &str| sized.contains(&w) || w == "MAX_BYTES" || (w == "MAX_NODES" && line.contains("row.len()"));
        while let Some(constant) = word(text, start..at + line.len(), tested) {
            start = constant.end;
            planter.plant(constant, "MAX_STEPS");
        }
    }
    planter.changes
}

// ---- functions

/// Where a declaration stands: all of it, its name, what stands between its brackets, its result.
struct Site {
    whole: Range<usize>,
    name: Range<usize>,
    list: Range<usize>,
    result: Range<usize>,
}

fn sites(text: &str) -> Vec<Site> {
    let site = |(at, _): (usize, &str)| {
        let before = &text[..at];
        let name = word(text, at..text.len(), |_| true)?;
        let declared = before.ends_with("fn ") || before.ends_with("uint32_t ");
        if !declared || !text[name.end..].starts_with('(') {
            return None;
        }
        let start = before.rfind('\n')? + 1;
        let close = name.end + text[name.end..].find(')')?;
        let end = close + text[close..].find([';', '\n'])? + 1;
        let result = match before.ends_with("uint32_t ") {
            true => at - 9..at - 1,
            false => word(text, close..end, |_| true)?,
        };
        Some(Site { whole: start..end, list: name.end + 1..close, name, result })
    };
    text.match_indices("melivanoup_").filter_map(site).collect()
}

/// Each function left out, under another name, declared once more, with another result, with one more parameter; and every
/// change of its parameters.
fn change_functions(file: &Text) -> Vec<Change> {
    let mut planter = Planter::new(file);
    let found = sites(&file.text);
    assert!(found.len() >= 9, "{}: {} functions", file.path, found.len());
    for site in found {
        let whole = &file.text[site.whole.clone()];
        let more = if file.text[site.list.clone()].contains(':') { "more: usize" } else { ", size_t more" };
        planter.plant(site.name.end..site.name.end, "x");
        planter.plant(site.result.clone(), other(&file.text[site.result.clone()]).unwrap());
        planter.plant(site.list.end..site.list.end, more);
        if let Some(exported) = file.text[..site.whole.start].strip_suffix("#[unsafe(no_mangle)]\n") {
            planter.plant(exported.len()..site.whole.start, "");
        } else {
            planter.plant(site.whole.clone(), "");
            planter.plant(site.whole.end..site.whole.end, &whole.replace("melivanoup_", "melivanoup_other_"));
        }
        change_parameters(&mut planter, site.list);
    }
    planter.changes
}

/// Each parameter left out, exchanged with the next, and changed in itself.
fn change_parameters(planter: &mut Planter, list: Range<usize>) {
    let text = &planter.file.text;
    let mut places = Vec::new();
    let mut at = list.start;
    for part in text[list].split_inclusive(',') {
        let parameter = part.trim_start();
        if !parameter.is_empty() {
            places.push(at + part.len() - parameter.len()..at + part.trim_end_matches(',').len());
        }
        at += part.len();
    }
    for (k, place) in places.iter().enumerate() {
        let comma = place.end + usize::from(text[place.end..].starts_with(','));
        match places.get(k + 1) {
            Some(next) => {
                let middle = &text[place.end..next.start];
                planter.plant(place.start..next.end, &[&text[next.clone()], middle, &text[place.clone()]].concat());
                planter.plant(place.start..comma, "");
            }
            // the last: in C with the comma before it
            None => planter.plant(places[k - 1].end..place.end, ""),
        }
        for words in variants(&text[place.clone()]) {
            planter.plant(place.clone(), &words);
        }
    }
}

/// A parameter under another name, of another type, with `const` and `mut` exchanged, and without its pointer.
fn variants(parameter: &str) -> Vec<String> {
    let kind = word(parameter, 0..parameter.len(), |w| other(w).is_some()).unwrap();
    let mut all = vec![[&parameter[..kind.start], other(&parameter[kind.clone()]).unwrap(), &parameter[kind.end..]].concat()];
    all.push(match parameter.split_once(':') {
        Some((name, kind)) => format!("{name}x:{kind}"),
        None => format!("{parameter}x"),
    });
    let exchanges = [
        ("*const ", "*mut "),
        ("*mut ", "*const "),
        ("&mut ", "&"),
        ("&[", "&mut ["),
        ("const uint", "uint"),
        ("const int", "int"),
    ];
    match exchanges.iter().find(|(from, _)| parameter.contains(from)) {
        Some((from, to)) => all.push(parameter.replacen(from, to, 1)),
        None if parameter.contains('*') => all.push(format!("const {parameter}")),
        None => (),
    }
    let bare = ["*const ", "*mut ", "&mut ", "&", "*"].iter().fold(parameter.to_owned(), |p, pointer| p.replace(pointer, ""));
    all.extend((bare != parameter).then_some(bare));
    all
}

/// Another type of numbers.
fn other(kind: &str) -> Option<&'static str> {
    Some(match kind {
        "u8" => "i8",
        "u16" => "u32",
        "u32" => "u64",
        "u64" => "i64",
        "i64" => "i32",
        "usize" => "u32",
        "uint8_t" => "int8_t",
        "uint16_t" => "uint32_t",
        "uint32_t" => "uint64_t",
        "uint64_t" => "int64_t",
        "int64_t" => "int32_t",
        "size_t" => "uint32_t",
        _ => return None,
    })
}

// ---- all of it

/// What is planted, by kind.
fn planted(texts: &Sources) -> [(&'static str, Vec<Change>); 5] {
    let declared = texts.declarations.iter().chain([&texts.header]);
    let numbered = texts.wrapper.iter().chain([&texts.header]);
    let source = texts.code.iter().chain(&texts.definitions);
    [
        ("of functions and parameters of callers", declared.flat_map(change_functions).collect()),
        ("of their numbers", numbered.flat_map(change_numbers).collect()),
        ("of how the wrapper uses its numbers", texts.wrapper.iter().flat_map(change_uses).collect()),
        ("of exported functions and parameters", change_functions(&texts.exported)),
        ("of numbers of the source", source.flat_map(change_source).collect()),
    ]
}

#[test]
fn every_planted_change_is_reported() {
    let texts = Sources::read(&Path::new(env!("CARGO_MANIFEST_DIR")).join("../.."));
    assert!(compare(&texts).differences.is_empty(), "the tree itself has a difference, so no planted one would show");
    let named: usize = texts.wrapper.iter().map(|file| numbers(&file.text).len()).sum();
    assert!(named >= 35 && named == numbers(&texts.header.text).len(), "{named} numbers in the wrapper");
    let source: Vec<_> = texts.code.iter().chain(&texts.definitions).flat_map(|file| file.text.lines()).collect();
    for start in DEPENDED {
        assert!(source.iter().any(|line| line.starts_with(start)), "no line of the source begins with {start:?}");
    }
    let kinds = planted(&texts);
    assert!(kinds.iter().all(|(_, changes)| changes.len() >= 15), "a kind of change finds no place");
    let mut survivors = Vec::new();
    for change in kinds.iter().flat_map(|(_, changes)| changes) {
        if compare(&texts.with(&change.path, &change.text)).differences.is_empty() {
            survivors.push(format!("{}: {}", change.path, change.what));
        }
    }
    let total: usize = kinds.iter().map(|(_, changes)| changes.len()).sum();
    assert!(survivors.is_empty(), "{} of {total} are not reported:\n{}", survivors.len(), survivors.join("\n"));
    let counts: Vec<_> = kinds.iter().map(|(kind, changes)| format!("{} {kind}", changes.len())).collect();
    println!("interface: {total} planted changes, all reported: {}", counts.join(", "));
}
