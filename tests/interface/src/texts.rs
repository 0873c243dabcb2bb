//! The texts that are compared.

use std::fs;
use std::path::{Path, PathBuf};

#[derive(Clone)]
pub struct Text {
    /// from the root of the repository
    pub path: String,
    pub text: String,
}

#[derive(Clone)]
pub struct Sources {
    /// the exported functions
    pub exported: Text,
    /// the Rattle code of all crates but programs: constants, tests of lengths, the refusals' numbers
    pub code: Vec<Text>,
    /// definitions of numbers that are no constants of the code
    pub definitions: Vec<Text>,
    pub header: Text,
    pub wrapper: Vec<Text>,
    /// every Rust file that declares the exported functions
    pub declarations: Vec<Text>,
}

const EXPORTED: &str = "crates/melivanoup/src/lib.rt";
const DEFINITIONS: [&str; 5] = [
    "crates/tables/specs/Layout.antt", "crates/plan/specs/Layout.antt", "crates/model/specs/Limits.antt",
    "crates/model/specs/Answers.antt", "crates/melivanoup/specs/Numbers.antt",
];

impl Sources {
    /// The texts of a tree; panics where one is missing.
    pub fn read(root: &Path) -> Sources {
        let rust: Vec<_> = ["bench", "callers", "tests"].iter().flat_map(|folder| files(root, folder, "rs")).collect();
        let declares = |file: &Text| file.text.contains("fn melivanoup_") && !file.path.starts_with("tests/interface");
        Sources {
            exported: text(root, EXPORTED),
            code: files(root, "crates", "rt").into_iter().filter(|file| !file.path.ends_with("/main.rt")).collect(),
            definitions: DEFINITIONS.iter().map(|path| text(root, path)).collect(),
            header: text(root, "callers/c/melivanoup.h"),
            wrapper: rust.iter().filter(|file| file.path.starts_with("callers/rust/src/")).cloned().collect(),
            declarations: rust.iter().filter(|file| declares(file)).cloned().collect(),
        }
    }

    /// A copy in which one file has another text.
    pub fn with(&self, path: &str, text: &str) -> Sources {
        let mut copy = self.clone();
        let Sources { exported, code, definitions, header, wrapper, declarations } = &mut copy;
        let lists = [code, definitions, wrapper, declarations].into_iter().flatten();
        for file in lists.chain([exported, header]).filter(|file| file.path == path) {
            file.text = text.to_owned();
        }
        copy
    }
}

fn text(root: &Path, path: &str) -> Text {
    let text = fs::read_to_string(root.join(path)).unwrap_or_else(|fault| panic!("{path}: {fault}"));
    Text { path: path.to_owned(), text }
}

/// The files under a folder with that ending, without what was built.
fn files(root: &Path, folder: &str, ending: &str) -> Vec<Text> {
    let entries = fs::read_dir(root.join(folder)).unwrap_or_else(|fault| panic!("{folder}: {fault}"));
    let mut paths: Vec<PathBuf> = entries.map(|entry| entry.unwrap().path()).collect();
    paths.sort();
    let mut found = Vec::new();
    for path in paths {
        let name = format!("{folder}/{}", path.file_name().unwrap().to_string_lossy());
        if path.is_dir() && !name.ends_with("/target") && !name.ends_with("/out") {
            found.extend(files(root, &name, ending));
        } else if path.extension().is_some_and(|e| e == ending) {
            found.push(text(root, &name));
        }
    }
    found
}

/// A text in C, Rust or Rattle without its comments, each run of white space one blank.
pub fn plain(text: &str) -> String {
    let mut kept = String::new();
    let mut rest = text;
    while let Some(at) = rest.find('/') {
        kept += &rest[..at];
        rest = &rest[at..];
        let length = match rest.as_bytes().get(1) {
            Some(b'/') => rest.find('\n'),
            Some(b'*') => rest.find("*/").map(|end| end + 2),
            _ => {
                kept.push('/');
                Some(1)
            }
        };
        rest = &rest[length.unwrap_or(rest.len())..];
    }
    kept += rest;
    kept.split_whitespace().collect::<Vec<_>>().join(" ")
}

/// What stands between two marks, the first time that the first of them is there.
pub fn between<'a>(text: &'a str, before: &str, after: &str) -> Option<&'a str> {
    Some(text.split_once(before)?.1.split_once(after)?.0)
}

/// A decimal as C, Rust and Rattle write it.
pub fn decimal(text: &str) -> Option<u64> {
    text.trim().replace('_', "").parse().ok()
}
