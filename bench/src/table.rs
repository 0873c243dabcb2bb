//! The table, from lines `BOOK SYSTEM READ COMPILE RUN WHOLE` in nanoseconds, or `BOOK SYSTEM over SECONDS`.

use std::collections::HashMap;

const SYSTEMS: [(&str, &str); 4] =
    [("proved", "proved"), ("reference", "Rust reference"), ("sqlite", "SQLite"), ("jena", "Jena SHACL")];
const PHASES: [&str; 4] = ["read", "compile", "run", "whole"];

/// Three digits and a unit.
fn time(ns: f64) -> String {
    let (x, unit) = match ns {
        x if x < 1e3 => (x, "ns"),
        x if x < 1e6 => (x / 1e3, "µs"),
        x if x < 1e9 => (x / 1e6, "ms"),
        x => (x / 1e9, "s"),
    };
    format!("{} {unit}", digits(x))
}

fn digits(x: f64) -> String {
    match x {
        x if x < 0.01 => "<0.01".to_string(),
        x if x >= 100.0 => format!("{x:.0}"),
        x if x >= 10.0 => format!("{x:.1}"),
        x => format!("{x:.2}"),
    }
}

/// The proved library's times, and every other system's as a multiple of them; bold where the proved one takes over a fifth longer.
pub fn table(figures: &str) -> String {
    let mut books: Vec<&str> = Vec::new();
    let mut found: HashMap<(&str, &str), Vec<&str>> = HashMap::new();
    for line in figures.lines() {
        let words: Vec<&str> = line.split(' ').collect();
        if !books.contains(&words[0]) {
            books.push(words[0]);
        }
        found.insert((words[0], words[1]), words[2..].to_vec());
    }
    let mut text = String::from("| Book | |");
    SYSTEMS.iter().for_each(|(_, title)| text += &format!(" {title} |"));
    text += "\n|---|---|---|---|---|---|\n";
    for book in books {
        let Some(proved) = found.get(&(book, "proved")) else { continue };
        for (k, phase) in PHASES.iter().enumerate() {
            let base: f64 = proved[k].parse().unwrap();
            text += &format!("| {} | {phase} | {} |", if k == 0 { book } else { "" }, time(base));
            for (system, _) in &SYSTEMS[1..] {
                let cell = match found.get(&(book, *system)).map(Vec::as_slice) {
                    None => "-".to_string(),
                    Some(["over", limit]) if k == 3 => format!("over × {}", digits(limit.parse::<f64>().unwrap() * 1e9 / base)),
                    Some(["over", _]) => String::new(),
                    Some(times) => {
                        let ratio = times[k].parse::<f64>().unwrap() / base;
                        if ratio * 1.2 < 1.0 { format!("**× {}**", digits(ratio)) } else { format!("× {}", digits(ratio)) }
                    }
                };
                text += &format!(" {cell} |");
            }
            text += "\n";
        }
    }
    text
}
