//! What of the sources may be changed: the lines of function bodies, and constants that the crate's own code uses.

use std::collections::HashMap;
use std::rc::Rc;
use std::{fs, io, path::Path};

/// The body of a function, or the constants of a file.
pub struct Site {
    pub krate: String,
    /// the file, below src/
    pub file: String,
    /// the lines that may be changed, by their number from 0
    pub lines: Vec<usize>,
    /// what the function returns, empty where it returns nothing
    pub result: String,
    /// all lines of the file
    pub text: Rc<Vec<String>>,
}

/// Its name, and the types that it holds.
pub type Variant = (String, Vec<String>);

/// What the crates declare, by name. Several may have one name.
#[derive(Default)]
pub struct Declared {
    /// the types of the parameters of each function and of each variant that holds something
    pub parameters: HashMap<String, Vec<Vec<String>>>,
    /// the variants of each enum
    pub variants: HashMap<String, Vec<Vec<Variant>>>,
    /// the value of each constant
    pub constants: HashMap<String, String>,
}

/// A line of crates.txt: `NAME: LIBRARY ..` or, of a static library, `NAME staticlib: LIBRARY ..`.
pub struct Crate {
    pub name: String,
    pub is_static: bool,
    pub below: Vec<String>,
}

/// The crates of crates.txt that are no programs.
pub fn crates(root: &Path) -> io::Result<Vec<Crate>> {
    let text = fs::read_to_string(root.join("crates.txt"))?;
    let lines = text.lines().filter_map(|line| line.split('#').next()?.split_once(':'));
    let all = lines.filter_map(|(head, below)| {
        let mut words = head.split_whitespace();
        let name = words.next()?.to_string();
        let below = below.split_whitespace().map(String::from).collect();
        Some(Crate { name, is_static: words.any(|word| word == "staticlib"), below })
    });
    Ok(all.filter(|c| root.join("crates").join(&c.name).join("src/lib.rt").exists()).collect())
}

/// The sites of a crate, in the order of its files. What it declares is added.
pub fn sites(root: &Path, krate: &str, declared: &mut Declared) -> io::Result<Vec<Site>> {
    let src = root.join("crates").join(krate).join("src");
    let mut names: Vec<_> = fs::read_dir(&src)?.map(|e| e.map(|e| e.file_name())).collect::<Result<_, _>>()?;
    names.sort();
    let mut found = Vec::new();
    for name in names.iter().filter_map(|n| n.to_str()).filter(|n| n.ends_with(".rt")) {
        let text: Rc<Vec<String>> = Rc::new(fs::read_to_string(src.join(name))?.lines().map(String::from).collect());
        let site = |result, lines| Site { krate: krate.into(), file: name.into(), lines, result, text: text.clone() };
        declared.add(&text);
        for (head, body) in functions(&text) {
            let result = head.split_once(") -> ").map_or("", |(_, result)| result);
            declared.add_parameters(&head);
            found.push(site(result.into(), body));
        }
        found.push(site(String::new(), (0..text.len()).filter(|&i| constant(&text[i]).is_some()).collect()));
    }
    drop_unused(&mut found);
    Ok(found)
}

/// A constant that only the crates above use is no site: there it is changed where it is used.
fn drop_unused(sites: &mut Vec<Site>) {
    let code: Vec<String> = sites.iter().flat_map(|s| s.lines.iter().map(|&i| s.text[i].clone())).collect();
    for site in sites.iter_mut() {
        let text = site.text.clone();
        let used = |name: &str| code.iter().filter(|line| tokens(line).iter().any(|t| t.text == name)).count() > 1;
        site.lines.retain(|&i| constant(&text[i]).is_none_or(|(name, _)| used(name)));
    }
    sites.retain(|s| !s.lines.is_empty());
}

/// The name and the value of the constant that a line declares.
fn constant(line: &str) -> Option<(&str, &str)> {
    let line = line.trim_start();
    let (name, rest) = line.strip_prefix("pub ").unwrap_or(line).strip_prefix("const ")?.split_once(": ")?;
    Some((name, rest.split_once(" = ")?.1.trim_end_matches(';')))
}

/// The head of each function, as one line without its contract, and the lines of its body: they stand between a line that ends in
/// `{` and a `}` at the depth of the function.
fn functions(text: &[String]) -> Vec<(String, Vec<usize>)> {
    let mut found = Vec::new();
    let mut i = 0;
    while i < text.len() {
        let code = text[i].trim_start();
        let words = code.trim_start_matches("pub ").trim_start_matches("extern \"C\" ");
        if !words.starts_with("fn ") || code.ends_with('}') {
            i += 1;
            continue;
        }
        let end = format!("{}}}", &text[i][..text[i].len() - code.len()]);
        let Some(open) = (i..text.len()).find(|&k| text[k].ends_with('{')) else { break };
        let Some(close) = (open..text.len()).find(|&k| text[k] == end) else { break };
        let head: String = text[i..=open].iter().map(|l| l.trim()).filter(|l| !is_clause(l)).collect();
        found.push((
            head.trim_end_matches('{').trim().into(),
            (open + 1..close).filter(|&k| !is_clause(text[k].trim())).collect(),
        ));
        i = close + 1;
    }
    found
}

fn is_clause(line: &str) -> bool {
    ["requires ", "ensures ", "ghost "].iter().any(|word| line.starts_with(word))
}

impl Declared {
    /// The constants and enums of a file.
    fn add(&mut self, text: &[String]) {
        let constants = text.iter().filter_map(|line| constant(line));
        self.constants.extend(constants.map(|(name, value)| (name.to_string(), value.to_string())));
        for (i, line) in text.iter().enumerate() {
            let Some(name) = line.strip_prefix("pub ").unwrap_or(line).strip_prefix("enum ") else { continue };
            let held = text[i + 1..].iter().take_while(|l| *l != "}").map(|l| l.trim().trim_end_matches(','));
            let held: Vec<_> = held.map(|v| (v.split('(').next().unwrap_or("").to_string(), types(v))).collect();
            for (variant, types) in &held {
                self.parameters.entry(variant.clone()).or_default().push(types.clone());
            }
            self.variants.entry(name.trim_end_matches(" {").to_string()).or_default().push(held);
        }
    }

    fn add_parameters(&mut self, head: &str) {
        let Some((_, rest)) = head.split_once("fn ") else { return };
        let name = rest.split(['(', '<']).next().unwrap_or("");
        self.parameters.entry(name.to_string()).or_default().push(types(rest));
    }
}

/// The types in the first brackets, without the names before them.
fn types(text: &str) -> Vec<String> {
    let inside = text.split_once('(').map_or("", |(_, rest)| rest.split(')').next().unwrap_or(""));
    let parts = inside.split(',').map(str::trim).filter(|part| !part.is_empty());
    parts.map(|part| part.split(": ").last().unwrap_or(part).to_string()).collect()
}

#[derive(Clone, Copy, PartialEq)]
pub enum Sort {
    Word,
    Number,
    Bytes,
    Mark,
}

#[derive(Clone, Copy)]
pub struct Token<'a> {
    pub sort: Sort,
    pub text: &'a str,
    /// where it stands in its line
    pub at: usize,
}

impl Token<'_> {
    pub fn end(&self) -> usize {
        self.at + self.text.len()
    }
}

const LONG_MARKS: [&str; 21] = [
    "..=", "..", "=>", "->", "::", "==", "!=", "<=", ">=", "&&", "||", "<<", ">>", "+=", "-=", "*=", "/=", "%=", "&=", "|=", "^=",
];

/// The tokens of a line of code, without its comment.
pub fn tokens(line: &str) -> Vec<Token<'_>> {
    let mut found = Vec::new();
    let mut at = 0;
    while let Some(c) = line[at..].chars().next() {
        let rest = &line[at..];
        if rest.starts_with("//") {
            break;
        }
        let run = || rest.find(|c: char| !c.is_alphanumeric() && c != '_').unwrap_or(rest.len());
        let (sort, len) = match c {
            'b' if rest.starts_with("b\"") => (Sort::Bytes, bytes_len(rest)),
            'a'..='z' | 'A'..='Z' | '_' => (Sort::Word, run()),
            '0'..='9' => (Sort::Number, run()),
            _ => (Sort::Mark, LONG_MARKS.iter().find(|m| rest.starts_with(**m)).map_or(c.len_utf8(), |m| m.len())),
        };
        if !c.is_whitespace() {
            found.push(Token { sort, text: &rest[..len], at });
        }
        at += len;
    }
    found
}

/// How long the byte string is that a text begins with.
fn bytes_len(text: &str) -> usize {
    let mut escaped = false;
    for (i, c) in text.char_indices().skip(2) {
        if c == '"' && !escaped {
            return i + 1;
        }
        escaped = c == '\\' && !escaped;
    }
    text.len()
}
