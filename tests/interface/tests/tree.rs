//! The tree as it is: callers declare what the source exports.

use interface::{compare, Sources};
use std::path::Path;

#[test]
fn callers_declare_what_is_exported() {
    let texts = Sources::read(&Path::new(env!("CARGO_MANIFEST_DIR")).join("../.."));
    let c = compare(&texts);
    assert!(c.differences.is_empty(), "\n{}", c.differences.join("\n"));
    // an empty comparison finds no difference: what is there must have been found
    assert!(c.functions >= 9 && c.parameters >= 110, "{} functions, {} parameters", c.functions, c.parameters);
    assert!(c.sizes >= 11 && c.refusals >= 12 && c.others >= 12, "{} {} {}", c.sizes, c.refusals, c.others);
    assert!(texts.declarations.len() >= 2, "the wrapper and the differential test declare the functions");
    println!(
        "interface: header and {} Rust declarations of {} functions with {} parameters; {} sizes, {} refusals, {} other numbers",
        texts.declarations.len(),
        c.functions,
        c.parameters,
        c.sizes,
        c.refusals,
        c.others
    );
}
