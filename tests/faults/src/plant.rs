//! The faults of one line that a site can have, by kind.

use crate::random::Random;
use crate::source::{tokens, Declared, Site, Sort, Token};
use std::collections::HashSet;

#[derive(Clone, PartialEq, Eq, Hash)]
pub struct Fault {
    pub krate: String,
    pub file: String,
    /// the line's number from 0
    pub line: usize,
    pub kind: &'static str,
    pub old: String,
    pub new: String,
}

/// A line of code, with what its faults depend on.
struct Line<'a> {
    text: &'a str,
    /// the tokens that are no pattern of a `let` or a `match`
    code: Vec<Token<'a>>,
    site: &'a Site,
    /// its number in the file
    number: usize,
    declared: &'a Declared,
}

type Changes = Vec<String>;

/// Its name, and what a line can become.
type Kind = (&'static str, fn(&Line) -> Changes);

const KINDS: [Kind; 8] = [
    ("relation", relations),
    ("constant", constants),
    ("operator", operators),
    ("flag", flags),
    ("exchange", exchanges),
    ("constructor", constructors),
    ("dropped", drops),
    ("return", returns),
];

/// Up to n different faults. Each draw takes a site, then a kind that it has, then one of these.
pub fn draw(sites: &[Site], declared: &Declared, n: usize, seed: u64) -> Vec<Fault> {
    let by_site: Vec<_> = sites.iter().map(|s| kinds_of(s, declared)).filter(|kinds| !kinds.is_empty()).collect();
    let mut random = Random::new(seed);
    let mut seen = HashSet::new();
    let mut drawn = Vec::new();
    let mut misses = 0;
    while drawn.len() < n && misses < 10_000 && !by_site.is_empty() {
        let kinds = random.pick(&by_site);
        let kind = random.pick(kinds);
        let fault = random.pick(kind);
        misses += 1;
        if seen.insert(fault.clone()) {
            drawn.push(fault.clone());
            misses = 0;
        }
    }
    drawn
}

/// The faults of a site, a list for each kind that it has.
fn kinds_of(site: &Site, declared: &Declared) -> Vec<Vec<Fault>> {
    let faults = |(kind, changes): &Kind| {
        let of_line = |&line: &usize| {
            let old = &site.text[line];
            let fault =
                move |new| Fault { krate: site.krate.clone(), file: site.file.clone(), line, kind, old: old.clone(), new };
            changes(&line_of(site, line, declared)).into_iter().filter(move |new| new != old).map(fault)
        };
        site.lines.iter().flat_map(of_line).collect::<Vec<_>>()
    };
    KINDS.iter().map(faults).filter(|list| !list.is_empty()).collect()
}

fn line_of<'a>(site: &'a Site, i: usize, declared: &'a Declared) -> Line<'a> {
    let text = &site.text[i];
    let all = tokens(text);
    let pattern_end = if all.iter().any(|t| t.text == "=>") { "=>" } else { "=" };
    let is_pattern = pattern_end == "=>" || all.iter().any(|t| ["let", "const"].contains(&t.text));
    let from = all.iter().position(|t| t.text == pattern_end).filter(|_| is_pattern).map_or(0, |k| k + 1);
    Line { text, code: all[from..].to_vec(), site, number: i, declared }
}

fn depth(line: &str) -> usize {
    line.len() - line.trim_start().len()
}

impl Line<'_> {
    fn with(&self, from: usize, to: usize, new: &str) -> String {
        format!("{}{}{}", &self.text[..from], new, &self.text[to..])
    }

    /// The line with another text for a token.
    fn replaced(&self, t: &Token, new: &str) -> String {
        self.with(t.at, t.end(), new)
    }

    /// The line with two texts exchanged that stand from a to b and from c to d.
    fn exchanged(&self, (a, b): (usize, usize), (c, d): (usize, usize)) -> String {
        format!("{}{}{}{}{}", &self.text[..a], &self.text[c..d], &self.text[b..c], &self.text[a..b], &self.text[d..])
    }

    /// A mark between two spaces is an operator of two operands.
    fn is_binary(&self, t: &Token) -> bool {
        t.sort == Sort::Mark && self.text[..t.at].ends_with(' ') && self.text[t.end()..].starts_with(' ')
    }

    fn trimmed(&self) -> &str {
        self.text.trim_start()
    }

    /// The line with other code at the same depth.
    fn instead(&self, new: &str) -> String {
        format!("{}{new}", &self.text[..depth(self.text)])
    }

    /// A statement, or the value of a block, begins with this line.
    fn begins(&self) -> bool {
        self.number > 0 && self.site.text[self.number - 1].ends_with([';', '{', '}'])
    }

    fn follows(&self, k: usize, text: &str) -> bool {
        k > 0 && self.code[k - 1].text == text
    }
}

fn relations(line: &Line) -> Changes {
    let others = |t: &Token| match t.text {
        "<" => vec!["<=", ">"],
        "<=" => vec!["<", ">="],
        ">" => vec![">=", "<"],
        ">=" => vec![">", "<="],
        "==" => vec!["!=", "<="],
        "!=" => vec!["==", "<"],
        _ => vec![],
    };
    let relations = line.code.iter().filter(|t| line.is_binary(t));
    let mut found: Changes = relations.flat_map(|t| others(t).into_iter().map(|r| line.replaced(t, r))).collect();
    if line.trimmed().starts_with("for ") {
        found.extend(line.code.iter().filter(|t| t.text == "..").map(|t| line.replaced(t, "..=")));
    }
    found
}

fn constants(line: &Line) -> Changes {
    let mut found = Vec::new();
    for (k, t) in line.code.iter().enumerate() {
        match t.sort {
            // a number after a point is a field
            Sort::Number if !line.follows(k, ".") => found.extend(other_numbers(t.text).iter().map(|n| line.replaced(t, n))),
            Sort::Word => {
                let value = line.declared.constants.get(t.text).map_or("", |v| v);
                let from = if line.follows(k, "::") { line.code[k - 2].at } else { t.at };
                found.extend(other_numbers(value).iter().map(|n| line.with(from, t.end(), n)));
            }
            Sort::Bytes => found.extend(other_words(t.text).iter().map(|b| line.replaced(t, b))),
            _ => {}
        }
    }
    found
}

/// One more and one less.
fn other_numbers(number: &str) -> Vec<String> {
    let (digits, suffix) = number.split_at(number.find(|c: char| c.is_alphabetic()).unwrap_or(number.len()));
    let Ok(n) = digits.replace('_', "").parse::<u128>() else { return Vec::new() };
    [Some(n + 1), n.checked_sub(1)].into_iter().flatten().map(|m| format!("{m}{suffix}")).collect()
}

/// A byte string with another first letter, for each word in it.
fn other_words(bytes: &str) -> Vec<String> {
    let chars: Vec<char> = bytes.chars().collect();
    let first = |&i: &usize| chars[i].is_ascii_lowercase() && !chars[i - 1].is_ascii_lowercase() && chars[i - 1] != '\\';
    let other = |i: usize| {
        let mut new = chars.clone();
        new[i] = if new[i] == 'z' { 'a' } else { (new[i] as u8 + 1) as char };
        new.into_iter().collect()
    };
    (2..chars.len()).filter(first).map(other).collect()
}

fn operators(line: &Line) -> Changes {
    let other = |t: &Token| match t.text {
        "+" => Some("-"),
        "-" => Some("+"),
        "*" => Some("+"),
        "/" => Some("%"),
        "%" => Some("/"),
        "&" => Some("|"),
        "|" => Some("&"),
        "^" => Some("|"),
        "&&" => Some("||"),
        "||" => Some("&&"),
        "<<" => Some(">>"),
        ">>" => Some("<<"),
        "+=" => Some("-="),
        "-=" => Some("+="),
        _ => None,
    };
    line.code.iter().filter(|t| line.is_binary(t)).filter_map(|t| other(t).map(|op| line.replaced(t, op))).collect()
}

fn flags(line: &Line) -> Changes {
    let mut found = Vec::new();
    for t in &line.code {
        match t.text {
            "true" => found.push(line.replaced(t, "false")),
            "false" => found.push(line.replaced(t, "true")),
            "!" => found.push(line.replaced(t, "")),
            "if" => found.extend(negated(line, t)),
            _ => {}
        }
    }
    found
}

/// The line with the condition after an `if` negated; one that is negated is left to the loss of its `!`.
fn negated(line: &Line, t: &Token) -> Option<String> {
    let from = t.end() + 1;
    let condition = line.text.get(from..)?.split(" {").next()?;
    let left = condition.starts_with('!') || condition.starts_with("let ");
    (!left && !condition.is_empty()).then(|| line.with(from, from + condition.len(), &format!("!({condition})")))
}

fn exchanges(line: &Line) -> Changes {
    let mut found = Vec::new();
    for (k, t) in line.code.iter().enumerate() {
        if t.text == "(" && k > 0 && line.code[k - 1].sort == Sort::Word && line.code[k - 1].end() == t.at {
            let arguments = arguments(line, k);
            let alike = alike(line.declared, line.code[k - 1].text, arguments.len());
            found.extend(alike.iter().map(|&(i, j)| line.exchanged(arguments[i], arguments[j])));
        }
        if line.is_binary(t) && ["-", "<", "<=", ">", ">=", "/", "%", "<<", ">>"].contains(&t.text) {
            if let (Some(left), Some(right)) = (operand_before(line, k), operand(line, k + 1)) {
                found.push(line.exchanged(left, right));
            }
        }
    }
    found.extend(doubled(line));
    found
}

/// The neighbours among a callee's n parameters of one type: only these can be exchanged.
fn alike(declared: &Declared, callee: &str, n: usize) -> Vec<(usize, usize)> {
    let known = declared.parameters.get(callee).into_iter().flatten().find(|types| types.len() == n);
    let Some(types) = known else { return Vec::new() };
    let next = |i: usize| (i + 1..n).find(|&j| types[j] == types[i]).map(|j| (i, j));
    (0..n).filter_map(next).collect()
}

/// Of a call with a line for each argument an argument twice: an exchange would change two lines.
fn doubled(line: &Line) -> Changes {
    let (text, at) = (&line.site.text, line.number);
    let outside = |i: &usize| depth(&text[*i]) != depth(line.text);
    let Some(above) = (0..at).rev().find(outside).filter(|&i| text[i].ends_with('(')) else { return Vec::new() };
    let Some(below) = (at..text.len()).find(outside).filter(|&i| text[i].trim_start().starts_with(')')) else {
        return Vec::new();
    };
    let callee = tokens(&text[above]).iter().rev().nth(1).map_or("", |t| t.text);
    let pairs = alike(line.declared, callee, below - above - 1).into_iter().map(|(i, j)| (above + 1 + i, above + 1 + j));
    pairs.filter(|&(i, j)| i == at || j == at).map(|(i, j)| text[i + j - at].clone()).collect()
}

/// Where the arguments stand of the call whose `(` is token k; none where its `)` is not in the line.
fn arguments(line: &Line, k: usize) -> Vec<(usize, usize)> {
    let Some(close) = matching(line, k) else { return Vec::new() };
    let mut found = Vec::new();
    let mut from = line.code[k].end();
    let mut depth = 0;
    for t in &line.code[k + 1..=close] {
        let ends = depth == 0 && (t.text == "," || t.text == ")");
        depth += step(t);
        if ends {
            let text = &line.text[from..t.at];
            let start = from + text.len() - text.trim_start().len();
            found.push((start, t.at));
            from = t.end();
        }
    }
    found
}

/// 1 for an opening bracket, -1 for a closing one.
fn step(t: &Token) -> i32 {
    match t.text {
        "(" | "[" | "{" => 1,
        ")" | "]" | "}" => -1,
        _ => 0,
    }
}

/// The token that closes the bracket that token k opens.
fn matching(line: &Line, k: usize) -> Option<usize> {
    let mut depth = 0;
    (k..line.code.len()).find(|&j| {
        depth += step(&line.code[j]);
        depth == 0
    })
}

/// Where the operand stands that begins with token k: it goes on as long as there is no space outside brackets.
fn operand(line: &Line, k: usize) -> Option<(usize, usize)> {
    let start = line.code.get(k)?.at;
    let mut j = k;
    loop {
        match step(&line.code[j]) {
            1 => j = matching(line, j)?,
            -1 => return None,
            _ => {}
        }
        let end = line.code[j].end();
        match line.code.get(j + 1) {
            Some(next) if next.at == end && step(next) >= 0 && ![",", ";"].contains(&next.text) => j += 1,
            _ => return Some((start, end)),
        }
    }
}

/// Where the operand stands that ends before token k.
fn operand_before(line: &Line, k: usize) -> Option<(usize, usize)> {
    let end = line.code[..k].last()?.end();
    let begins = |&j: &usize| j == 0 || line.code[j - 1].end() < line.code[j].at || step(&line.code[j - 1]) == 1;
    (0..k).filter(begins).filter_map(|j| operand(line, j)).find(|&(_, e)| e == end)
}

/// Another variant that holds the same types.
fn constructors(line: &Line) -> Changes {
    let mut found = Vec::new();
    for path in line.code.windows(3).filter(|path| path[1].text == "::") {
        for held in line.declared.variants.get(path[0].text).into_iter().flatten() {
            let Some((_, types)) = held.iter().find(|(name, _)| name == path[2].text) else { continue };
            let others = held.iter().filter(|(name, other)| name != path[2].text && other == types);
            found.extend(others.map(|(name, _)| line.replaced(&path[2], name)));
        }
    }
    found
}

/// A store, or a call for what it stores, left out.
fn drops(line: &Line) -> Changes {
    let code = line.trimmed();
    let stores = line.code.iter().any(|t| ["=", "+=", "-="].contains(&t.text) && line.is_binary(t));
    let calls = line.code.get(1).is_some_and(|t| t.text == "(");
    let declares = ["let ", "return ", "const ", "pub "].iter().any(|word| code.starts_with(word));
    if line.begins() && code.ends_with(';') && !declares && (stores || calls) {
        return vec![String::new()];
    }
    Vec::new()
}

/// A literal instead of what is returned.
fn returns(line: &Line) -> Changes {
    let literals: &[&str] = match line.site.result.as_str() {
        "bool" => &["true", "false"],
        "u8" | "u16" | "u32" | "u64" | "usize" | "i64" => &["0"],
        _ => &[],
    };
    let code = line.trimmed();
    let returned = code.strip_prefix("return ").and_then(|rest| rest.strip_suffix(';'));
    let is_last = line.site.lines.last() == Some(&line.number) && line.begins() && !code.ends_with(['}', ';']);
    let is_literal = |text: &str| text == "true" || text == "false" || text.chars().all(|c| c.is_ascii_digit());
    match returned {
        Some(value) if !is_literal(value) => literals.iter().map(|l| line.instead(&format!("return {l};"))).collect(),
        None if is_last && !is_literal(code) => literals.iter().map(|l| line.instead(l)).collect(),
        _ => Vec::new(),
    }
}
