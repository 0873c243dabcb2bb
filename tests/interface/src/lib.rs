//! The exported functions against what callers declare of them: the C header, the Rust wrapper, and every other Rust file here
//! that declares them. Linking compares no parameter, size or number; this does.

mod callers;
mod functions;
mod source;
mod texts;

pub use texts::{Sources, Text};

use functions::Function;
use source::Source;
use std::collections::{BTreeMap, BTreeSet};

type Numbers = BTreeMap<String, u64>;

/// How much the source has, and every difference in words.
pub struct Comparison {
    pub functions: usize,
    pub parameters: usize,
    pub sizes: usize,
    pub refusals: usize,
    /// offsets, counts and codes that the header names, and the stack
    pub others: usize,
    pub differences: Vec<String>,
}

/// The stack is measured: the source has no number for it, so header and wrapper are only held to each other.
const MEASURED: &str = "STACK";

pub fn compare(texts: &Sources) -> Comparison {
    let mut faults = Vec::new();
    let source = source::read(texts, &mut faults);
    same_functions(&texts.header.path, &functions::prototypes(&texts.header.text), &source.functions, &mut faults);
    for file in &texts.declarations {
        same_functions(&file.path, &functions::declared(&file.text), &source.functions, &mut faults);
    }
    let header = callers::header(&texts.header, &mut faults);
    let wrapper = callers::wrapper(&texts.wrapper, &mut faults);
    same_numbers("header", &header, &source, &mut faults);
    same_numbers("wrapper", &wrapper, &source, &mut faults);
    for name in header.keys().chain(wrapper.keys()).collect::<BTreeSet<_>>() {
        if header.get(name) != wrapper.get(name) {
            faults.push(format!("{name}: header {}, wrapper {}", shown(header.get(name)), shown(wrapper.get(name))));
        }
    }
    Comparison {
        functions: source.functions.len(),
        parameters: source.functions.iter().map(|f| f.parameters.len()).sum(),
        sizes: source.sizes.len(),
        refusals: source.refusals.len(),
        others: header.keys().filter(|name| !source.required(name)).count(),
        differences: faults,
    }
}

fn shown(number: Option<&u64>) -> String {
    number.map_or("none".to_owned(), u64::to_string)
}

fn same_functions(path: &str, found: &[Function], source: &[Function], faults: &mut Vec<String>) {
    for f in found {
        if !source.iter().any(|s| s.name == f.name) {
            faults.push(format!("{path}: {} is not exported", f.name));
        }
    }
    for s in source {
        let declared: Vec<_> = found.iter().filter(|f| f.name == s.name).collect();
        match declared[..] {
            [f] => same_function(path, f, s, faults),
            _ => faults.push(format!("{path}: {} is declared {} times", s.name, declared.len())),
        }
    }
}

fn same_function(path: &str, found: &Function, source: &Function, faults: &mut Vec<String>) {
    if found.result != source.result {
        faults.push(format!("{path}: {} gives {}, in the source {}", source.name, found.result, source.result));
    }
    for i in 0..found.parameters.len().max(source.parameters.len()) {
        let (f, s) = (found.parameters.get(i), source.parameters.get(i));
        if f != s {
            faults.push(format!("{path}: {}, parameter {}: {f:?}, in the source {s:?}", source.name, i + 1));
        }
    }
}

/// A caller names every size and refusal, and nothing that the source does not have, each with the source's number.
fn same_numbers(caller: &str, found: &Numbers, source: &Source, faults: &mut Vec<String>) {
    let required = source.sizes.keys().chain(source.refusals.keys());
    for name in required.chain(found.keys()).collect::<BTreeSet<_>>() {
        let (f, s) = (found.get(name), source.number(name));
        if f != s && name != MEASURED {
            faults.push(format!("{name}: {caller} {}, source {}", shown(f), shown(s)));
        }
    }
}
