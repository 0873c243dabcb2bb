//! Functions and their parameters, all in the words of a Rust declaration.

use crate::texts::plain;

/// A parameter is `names: *mut u8`, a result `u32`.
pub struct Function {
    pub name: String,
    pub parameters: Vec<String>,
    pub result: String,
}

const EXPORT: &str = "#[unsafe(no_mangle)] pub extern \"C\" fn ";

/// What Rattle code exports.
pub fn exported(text: &str) -> Vec<Function> {
    plain(text).split(EXPORT).skip(1).filter_map(|rest| function(rest, lent)).collect()
}

/// What the `extern` blocks of a Rust file declare.
pub fn declared(text: &str) -> Vec<Function> {
    let text = plain(text);
    let blocks = text.split("extern \"C\" {").skip(1).filter_map(|rest| Some(rest.split_once('}')?.0));
    blocks.flat_map(|block| block.split("fn ").skip(1)).filter_map(|rest| function(rest, |p| vec![p.to_owned()])).collect()
}

/// What a C header declares.
pub fn prototypes(text: &str) -> Vec<Function> {
    let code: Vec<_> = text.lines().filter(|line| !line.starts_with('#')).collect();
    let code = plain(&code.join("\n"));
    code.split(';').filter_map(|statement| prototype(statement.rsplit(['{', '}']).next()?)).collect()
}

/// `name(parameters) -> result`, and more after it; `shape` gives what one parameter is for a caller.
fn function(text: &str, shape: impl Fn(&str) -> Vec<String>) -> Option<Function> {
    let (name, rest) = text.split_once('(')?;
    let (list, rest) = rest.split_once(')')?;
    let result = rest.trim_start().strip_prefix("->").and_then(|r| r.split([';', '{']).next()?.split_whitespace().next());
    let parameters = list.split(',').map(str::trim).filter(|p| !p.is_empty()).flat_map(shape).collect();
    Some(Function { name: name.trim().to_owned(), parameters, result: result.unwrap_or("()").to_owned() })
}

/// A slice is lent as a pointer and a length, a number to be written as a pointer.
fn lent(parameter: &str) -> Vec<String> {
    let Some((name, kind)) = parameter.split_once(": ") else { return vec![parameter.to_owned()] };
    let (pointer, target) = match kind.strip_prefix("&mut ") {
        Some(target) => ("*mut", target),
        None => match kind.strip_prefix('&') {
            Some(target) => ("*const", target),
            None => return vec![parameter.to_owned()],
        },
    };
    match target.strip_prefix('[').and_then(|t| t.strip_suffix(']')) {
        Some(element) => vec![format!("{name}: {pointer} {element}"), format!("{name}_len: usize")],
        None => vec![format!("{name}: {pointer} {target}")],
    }
}

fn prototype(statement: &str) -> Option<Function> {
    let (head, rest) = statement.split_once('(')?;
    let list = rest.split_once(')')?.0;
    let (name, result) = named(head);
    let parameters = list.split(',').map(named).map(|(name, kind)| format!("{name}: {kind}")).collect();
    Some(Function { name, parameters, result })
}

/// A declaration in C, `const uint8_t *names`: its name, and its type in Rust's words.
fn named(declaration: &str) -> (String, String) {
    let spaced = declaration.replace('*', " * ");
    let mut words: Vec<_> = spaced.split_whitespace().collect();
    let name = words.pop().unwrap_or_default().to_owned();
    let kind = match words[..] {
        ["const", target, "*"] => format!("*const {}", rust(target)),
        [target, "*"] => format!("*mut {}", rust(target)),
        [kind] => rust(kind),
        _ => words.join(" "),
    };
    (name, kind)
}

/// `uint8_t` is u8, `size_t` usize; what has no such name stays, and so differs.
fn rust(kind: &str) -> String {
    let bits = |prefix: &str| kind.strip_prefix(prefix).and_then(|k| k.strip_suffix("_t"));
    match (kind, bits("uint"), bits("int")) {
        ("size_t", _, _) => "usize".to_owned(),
        (_, Some(bits), _) => format!("u{bits}"),
        (_, _, Some(bits)) => format!("i{bits}"),
        _ => kind.to_owned(),
    }
}
