//! What was written against what is to be written, case by case.

use std::io::Write;

/// The lines that a case writes, and the heading that they stand under.
#[derive(Default, PartialEq)]
struct Written<'a> {
    heading: &'a str,
    lines: Vec<&'a str>,
}

/// A line `- ..` is a heading, an indented one belongs to the case above it, any other begins a case.
fn split(text: &str) -> Vec<Written<'_>> {
    let mut cases: Vec<Written> = Vec::new();
    let mut heading = "";
    for line in text.lines() {
        match cases.last_mut() {
            _ if line.starts_with("- ") => heading = line,
            Some(case) if line.starts_with(' ') => case.lines.push(line),
            _ => cases.push(Written { heading, lines: vec![line] }),
        }
    }
    cases
}

/// The first line in which a case differs, under its heading and title.
fn difference(expected: &Written, got: &Written) -> String {
    let line = |case: &Written, k: usize| case.lines.get(k).map_or("nothing".into(), |line| format!("{line:?}"));
    let all = expected.lines.len().max(got.lines.len());
    let k = (0..all).find(|&k| line(expected, k) != line(got, k)).unwrap_or(0);
    let titled = if got.lines.is_empty() { expected } else { got };
    let title = format!("{} {}", titled.heading, titled.lines[0]);
    format!("{}\n  expected {}\n  got      {}", title.trim_start(), line(expected, k), line(got, k))
}

/// Fails with a list of the cases that are not as they are to be, or where there is none.
pub fn compare(subject: &str, expected: &str, written: &str) {
    let (expected, got) = (split(expected), split(written));
    assert!(!expected.is_empty(), "{subject} has no case");
    let (cases, none) = (expected.len().max(got.len()), Written::default());
    let pairs = (0..cases).map(|k| (expected.get(k).unwrap_or(&none), got.get(k).unwrap_or(&none)));
    let differ: Vec<String> = pairs.filter(|(e, g)| e != g).map(|(e, g)| difference(e, g)).collect();
    // to the stream itself, since the harness keeps back what a test prints
    writeln!(std::io::stdout(), "\n{subject}: {} passed, {} failed", cases - differ.len(), differ.len()).expect("a stream");
    assert!(differ.is_empty(), "{subject}: {} of {cases} cases differ\n{}", differ.len(), differ.join("\n"));
}

/// Fails where the cases are not as `data/SUBJECT.out` has them.
pub fn compare_file(subject: &str, written: &str) {
    compare(subject, &crate::text(&format!("{subject}.out")), written);
}
