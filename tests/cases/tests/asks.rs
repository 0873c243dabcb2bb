//! The questions of `tests/asks`: `NAME.ask` is one about the book `NAME.book`, `NAME.ans` its answer.
//!
//! | Question | Answer |
//! |---|---|
//! | `verdict NODE SHAPE`, by console 0 | `yes`, `no` or `refused N` |
//! | `rounds NODE PATHENTRY` | the number, or `refused N` |
//! | `nearest NODE PATHENTRY SHAPE` | `at HOPS NODE`, `no spare` or `refused N` |
//! | `session`, then lines `CONSOLE NODE SHAPE` | such a line for each; then `tallies T0 .. T7` |
//!
//! A session begins with eight zeros, or with what a line `from T0 .. T7` says.

use melivanoup::{Refusal, Tables, Tallies};
use std::collections::BTreeSet;
use std::path::{Path, PathBuf};

fn numbers<T: std::str::FromStr>(words: &str) -> Vec<T> {
    words.split(' ').map(|word| word.parse().unwrap_or_else(|_| panic!("{words:?}: {word:?} is no number"))).collect()
}

fn refused(why: Refusal) -> String {
    format!("refused {}\n", why.ground.number())
}

/// The answer to `CONSOLE NODE SHAPE`.
fn verdict(tables: &Tables, words: &str, tallies: &mut Tallies) -> String {
    let question: Vec<usize> = numbers(words);
    let [console, node, shape] = question[..] else { panic!("{words:?} is no question") };
    match tables.verdict(console, node, shape, tallies) {
        Ok(true) => "yes\n".to_owned(),
        Ok(false) => "no\n".to_owned(),
        Err(why) => refused(why),
    }
}

/// The answer to `NODE PATHENTRY`.
fn rounds(tables: &Tables, words: &str) -> String {
    let question: Vec<usize> = numbers(words);
    let [node, path] = question[..] else { panic!("{words:?} is no question") };
    tables.rounds(node, path).map_or_else(refused, |rounds| format!("{rounds}\n"))
}

/// The answer to `NODE PATHENTRY SHAPE`.
fn nearest(tables: &Tables, words: &str) -> String {
    let question: Vec<usize> = numbers(words);
    let [node, path, shape] = question[..] else { panic!("{words:?} is no question") };
    match tables.nearest(node, path, shape) {
        Ok(Some(spare)) => format!("at {} {}\n", spare.hops, spare.node),
        Ok(None) => "no spare\n".to_owned(),
        Err(why) => refused(why),
    }
}

/// Direct questions, one after the other; the tallies are handed on.
fn session(tables: &Tables, lines: &[&str]) -> String {
    let (mut written, mut tallies) = (String::new(), Tallies::new());
    let from = lines.first().and_then(|line| line.strip_prefix("from "));
    if let Some(from) = from {
        tallies.counts = numbers(from).try_into().expect("eight tallies");
    }
    for line in &lines[from.iter().len()..] {
        written += &verdict(tables, line, &mut tallies);
    }
    written + &tallies.counts.iter().fold("tallies".to_owned(), |text, tally| format!("{text} {tally}")) + "\n"
}

fn answer(ask: &Path) -> String {
    let mut tables = Tables::new();
    tables.read(&std::fs::read(ask.with_extension("book")).expect("a book")).expect("a book that is accepted");
    let text = std::fs::read_to_string(ask).expect("a question");
    let lines: Vec<&str> = text.lines().collect();
    match lines[0].split_once(' ').unwrap_or((lines[0], "")) {
        ("session", "") => session(&tables, &lines[1..]),
        ("rounds", question) => rounds(&tables, question),
        ("nearest", question) => nearest(&tables, question),
        ("verdict", question) => verdict(&tables, &format!("0 {question}"), &mut Tallies::new()),
        _ => panic!("{}: what is {:?}?", ask.display(), lines[0]),
    }
}

#[test]
fn questions_have_their_answers() {
    let folder = Path::new(env!("CARGO_MANIFEST_DIR")).join("../asks");
    let files = std::fs::read_dir(&folder).expect("a folder").map(|file| file.expect("a file").path());
    // so that a book or an answer without its question is missed
    let asks: BTreeSet<PathBuf> = files.map(|file| file.with_extension("ask")).collect();
    let (mut expected, mut written) = (String::new(), String::new());
    for ask in &asks {
        let title = format!("- {}\n", ask.file_stem().expect("a name").to_string_lossy());
        let told = std::fs::read_to_string(ask.with_extension("ans")).expect("an answer");
        expected += &(title.clone() + &told);
        written += &(title + &answer(ask));
    }
    cases::compare("asks", &expected, &written);
}
