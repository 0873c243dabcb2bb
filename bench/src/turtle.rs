//! A book in the W3C's own languages, for Jena: its facts as an RDF graph, its rules as a SHACL shapes graph, both in Turtle.
//!
//! Comparable are books in which no two numbers are equal, a type has either numbers or texts, no language begins another,
//! `less` does not set words against words, and neither `is` nor `node` names a blank.

use reference::reader::{LANGS, LINKS, NODES, TYPES};
use reference::{Book, End, Form, Path, Target, Term};

const PREFIXES: &str = "@prefix sh: <http://www.w3.org/ns/shacl#> .\n@prefix xsd: <http://www.w3.org/2001/XMLSchema#> .\n\
    @prefix rdf: <http://www.w3.org/1999/02/22-rdf-syntax-ns#> .\n@prefix rdfs: <http://www.w3.org/2000/01/rdf-schema#> .\n";

const XSD: [&str; 4] = ["integer", "decimal", "long", "int"];

fn name(book: &Book, pool: usize, k: usize) -> &str {
    std::str::from_utf8(&book.pools[pool][k]).unwrap()
}

/// The IRI of a datatype: one of XSD's numeric ones where the book has numbers of that type.
fn datatype(book: &Book, t: usize) -> String {
    let numeric = |t: usize| book.terms.iter().any(|x| matches!(x, Term::Number(u, _) if *u == t));
    if t == 0 {
        "http://www.w3.org/1999/02/22-rdf-syntax-ns#langString".into()
    } else if numeric(t) {
        let place = (1..t).filter(|&u| numeric(u)).count();
        format!("http://www.w3.org/2001/XMLSchema#{}", XSD[place])
    } else {
        format!("urn:t:{}", name(book, TYPES, t))
    }
}

fn node(book: &Book, v: usize) -> String {
    let name = name(book, NODES, v);
    match &book.terms[v] {
        Term::Thing => format!("<urn:n:{name}>"),
        Term::Blank => format!("_:n{name}"),
        Term::Number(t, x) => format!("\"{x}\"^^<{}>", datatype(book, *t)),
        Term::Text(t) => format!("\"{name}\"^^<{}>", datatype(book, *t)),
        Term::Words(l) => format!("\"{name}\"@{}", lang(book, *l)),
    }
}

/// The first part of a language tag is letters.
fn lang(book: &Book, l: usize) -> String {
    format!("x-{}", name(book, LANGS, l))
}

fn link(book: &Book, p: usize) -> String {
    match p {
        0 => "rdf:type".into(),
        _ if book.under() == Some(p) => "rdfs:subClassOf".into(),
        _ => format!("<urn:l:{}>", name(book, LINKS, p)),
    }
}

pub fn data(book: &Book) -> String {
    let fact = |f: &(usize, usize, usize)| format!("{} {} {} .\n", node(book, f.0), link(book, f.1), node(book, f.2));
    PREFIXES.to_string() + &book.facts.iter().map(fact).collect::<String>()
}

/// A shape for each of the book's, and one for each rule, so that a result says which rule it is of.
pub fn shapes(book: &Book) -> String {
    let mut text = PREFIXES.to_string();
    for (s, &f) in book.shapes.iter().enumerate() {
        text += &format!("<urn:s:{s}> a sh:NodeShape {} .\n", constraint(book, f));
    }
    for (r, (s, target)) in book.rules.iter().enumerate() {
        let target = match target {
            Target::Node(c) => format!("sh:targetNode {}", node(book, *c)),
            Target::Subjects(p) => format!("sh:targetSubjectsOf {}", link(book, *p)),
            Target::Objects(p) => format!("sh:targetObjectsOf {}", link(book, *p)),
            Target::Class(c) => format!("sh:targetClass {}", node(book, *c)),
        };
        text += &format!("<urn:r:{r}> a sh:NodeShape ; {target} ; sh:node <urn:s:{s}> .\n");
    }
    text
}

fn shape(book: &Book, form: usize) -> String {
    format!("[ a sh:NodeShape {} ]", constraint(book, form))
}

fn path(book: &Book, entry: usize) -> String {
    match book.paths[entry] {
        Path::Link(p) => link(book, p),
        Path::Inv(e) => format!("[ sh:inversePath {} ]", path(book, e)),
        Path::Seq(d, e) => format!("( {} {} )", path(book, d), path(book, e)),
        Path::Alt(d, e) => format!("[ sh:alternativePath ( {} {} ) ]", path(book, d), path(book, e)),
        Path::Star(e) => format!("[ sh:zeroOrMorePath {} ]", path(book, e)),
        Path::Plus(e) => format!("[ sh:oneOrMorePath {} ]", path(book, e)),
    }
}

fn along(book: &Book, e: usize, rest: String) -> String {
    format!("; sh:property [ sh:path {} {rest} ]", path(book, e))
}

fn from(book: &Book, end: End, rest: String) -> String {
    match end {
        End::Id => rest,
        End::Along(e) => along(book, e, rest),
    }
}

/// What stands after `a sh:NodeShape`.
fn constraint(book: &Book, entry: usize) -> String {
    let sub = |f: &usize| shape(book, *f);
    let list = |items: Vec<String>| format!("( {} )", items.join(" "));
    match &book.forms[entry] {
        Form::True => String::new(),
        Form::Is(c) => format!("; sh:hasValue {}", node(book, *c)),
        Form::Shape(s) => format!("; sh:node <urn:s:{s}>"),
        Form::And(f, g) => format!("; sh:and {}", list(vec![sub(f), sub(g)])),
        Form::Or(f, g) => format!("; sh:or {}", list(vec![sub(f), sub(g)])),
        Form::Not(f) => format!("; sh:not {}", sub(f)),
        Form::Kind(k) => format!("; sh:nodeKind sh:{}", ["IRI", "BlankNode", "Literal"][*k]),
        Form::Datatype(t) => format!("; sh:datatype <{}>", datatype(book, *t)),
        Form::Lang(ls) => format!("; sh:languageIn {}", list(ls.iter().map(|&l| format!("\"{}\"", lang(book, l))).collect())),
        Form::From(x) => format!("; sh:minInclusive {x}"),
        Form::Above(x) => format!("; sh:minExclusive {x}"),
        Form::To(x) => format!("; sh:maxInclusive {x}"),
        Form::Below(x) => format!("; sh:maxExclusive {x}"),
        Form::Count { path, form, lo, hi } => {
            let (each, least, most) = match book.forms[*form] {
                Form::True => (String::new(), "; sh:minCount", "; sh:maxCount"),
                _ => (format!("; sh:qualifiedValueShape {}", sub(form)), "; sh:qualifiedMinCount", "; sh:qualifiedMaxCount"),
            };
            let most = hi.map_or(String::new(), |h| format!("{most} {h}"));
            along(book, *path, format!("{each} {least} {lo} {most}"))
        }
        Form::All(e, f) => along(book, *e, format!("; sh:node {}", sub(f))),
        Form::Equal(e, p) => from(book, *e, format!("; sh:equals {}", link(book, *p))),
        Form::Apart(e, p) => from(book, *e, format!("; sh:disjoint {}", link(book, *p))),
        Form::Closed(ps) => {
            format!("; sh:closed true ; sh:ignoredProperties {}", list(ps.iter().map(|&p| link(book, p)).collect()))
        }
        Form::Less(e, p) => along(book, *e, format!("; sh:lessThan {}", link(book, *p))),
        Form::Lesseq(e, p) => along(book, *e, format!("; sh:lessThanOrEquals {}", link(book, *p))),
        Form::Onelang(e) => along(book, *e, "; sh:uniqueLang true".into()),
    }
}

/// The lists of a book's rules, from lines `RULE TERM` that name each break's node as the data does.
pub fn lists(book: &Book, breaks: &str) -> Vec<Vec<usize>> {
    let numbers: std::collections::HashMap<String, usize> = (0..book.terms.len()).map(|v| (node(book, v), v)).collect();
    let mut lists = vec![Vec::new(); book.rules.len()];
    for line in breaks.lines() {
        let (rule, term) = line.split_once(' ').unwrap();
        lists[rule.parse::<usize>().unwrap()].push(numbers[term]);
    }
    lists.iter_mut().for_each(|list| list.sort_unstable());
    lists
}
