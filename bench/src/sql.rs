//! A book as a database, and a query for each of its rules: the SQL of "Compiling SHACL Into SQL" (source 000), with its Table 2
//! corrected to its Table 1 as document 01 says, and with paths, which the source leaves out.
//!
//! Each part of a condition is a named part of one WITH query: by name, not by nesting, so that no depth is too deep for SQLite.
//! Sets of pairs are kept as sets (`alt` and repeated facts count an end once); nodes without ends are never lost; a term without
//! a number fails its pairs.

use reference::{Book, End, Form, Path, Target, Term};
use std::collections::HashMap;

pub const SCHEMA: &str = "
CREATE TABLE Nodes (Node INTEGER PRIMARY KEY);
CREATE TABLE IRIs (Node INTEGER PRIMARY KEY);
CREATE TABLE Blanks (Node INTEGER PRIMARY KEY);
CREATE TABLE Literals (Node INTEGER PRIMARY KEY, Type INTEGER, Lang INTEGER);
CREATE TABLE Numerics (Node INTEGER PRIMARY KEY, Value INTEGER);
CREATE TABLE Triples (Predicate INTEGER, Subject INTEGER, Object INTEGER, PRIMARY KEY (Predicate, Subject, Object)) WITHOUT ROWID;
CREATE INDEX Backwards ON Triples (Predicate, Object, Subject);
";

/// What to insert: a statement and the rows of its numbers.
pub fn rows(book: &Book) -> Vec<(&'static str, Vec<Vec<i64>>)> {
    let terms = || book.terms.iter().enumerate().map(|(k, t)| (k as i64, t));
    let some = |keep: fn(&Term) -> bool| terms().filter(|(_, t)| keep(t)).map(|(k, _)| vec![k]).collect();
    let typed = |k: i64, t: &Term| match t {
        Term::Number(t, _) | Term::Text(t) => Some(vec![k, *t as i64]),
        _ => None,
    };
    let tagged = |k: i64, t: &Term| match t {
        Term::Words(l) => Some(vec![k, *l as i64]),
        _ => None,
    };
    let value = |k: i64, t: &Term| match t {
        Term::Number(_, v) => Some(vec![k, *v]),
        _ => None,
    };
    vec![
        ("INSERT INTO Nodes VALUES (?)", some(|_| true)),
        ("INSERT INTO IRIs VALUES (?)", some(|t| *t == Term::Thing)),
        ("INSERT INTO Blanks VALUES (?)", some(|t| *t == Term::Blank)),
        ("INSERT INTO Literals VALUES (?, ?, NULL)", terms().filter_map(|(k, t)| typed(k, t)).collect()),
        ("INSERT INTO Literals VALUES (?, 0, ?)", terms().filter_map(|(k, t)| tagged(k, t)).collect()),
        ("INSERT INTO Numerics VALUES (?, ?)", terms().filter_map(|(k, t)| value(k, t)).collect()),
        (
            "INSERT OR IGNORE INTO Triples VALUES (?, ?, ?)",
            book.facts.iter().map(|f| vec![f.1 as i64, f.0 as i64, f.2 as i64]).collect(),
        ),
    ]
}

/// The query of each rule: the nodes that break it, lowest first.
pub fn queries(book: &Book) -> Vec<String> {
    let query = |(shape, target): &(usize, Target)| {
        let mut query = Query { book, parts: Vec::new(), shapes: HashMap::new() };
        let selected = query.target(target);
        let broken = query.shape(*shape, false);
        let parts = query.parts.join(",\n");
        format!("WITH RECURSIVE {parts}\nSELECT Node FROM {selected} INTERSECT SELECT Node FROM {broken} ORDER BY Node")
    };
    book.rules.iter().map(query).collect()
}

struct Query<'a> {
    book: &'a Book,
    parts: Vec<String>,
    /// the part of a shape, kept or broken
    shapes: HashMap<(usize, bool), String>,
}

fn numbers(list: &[usize]) -> String {
    list.iter().map(usize::to_string).collect::<Vec<_>>().join(", ")
}

impl Query<'_> {
    /// the name of the part that comes next
    fn next(&self) -> String {
        format!("q{}", self.parts.len())
    }

    fn part(&mut self, columns: &str, sql: String) -> String {
        let name = self.next();
        self.parts.push(format!("{name}({columns}) AS ({sql})"));
        name
    }

    fn nodes(&mut self, sql: String) -> String {
        self.part("Node", sql)
    }

    /// the nodes that are not in a part
    fn others(&mut self, part: String) -> String {
        self.nodes(format!("SELECT Node FROM Nodes EXCEPT SELECT Node FROM {part}"))
    }

    fn target(&mut self, target: &Target) -> String {
        let sql = match (target, self.book.under()) {
            (Target::Node(c), _) => format!("SELECT {c}"),
            (Target::Subjects(p), _) => format!("SELECT DISTINCT Subject FROM Triples WHERE Predicate = {p}"),
            (Target::Objects(p), _) => format!("SELECT DISTINCT Object FROM Triples WHERE Predicate = {p}"),
            (Target::Class(c), None) => format!("SELECT Subject FROM Triples WHERE Predicate = 0 AND Object = {c}"),
            (Target::Class(c), Some(under)) => {
                let kinds = self.kinds(*c, under);
                format!("SELECT DISTINCT Subject FROM {kinds} JOIN Triples ON Predicate = 0 AND Object = Node")
            }
        };
        self.nodes(sql)
    }

    /// a class, and the classes from which facts by `under` lead to it: a part that names itself
    fn kinds(&mut self, class: usize, under: usize) -> String {
        let all = self.next();
        self.nodes(format!("SELECT {class} UNION SELECT Subject FROM {all} JOIN Triples ON Predicate = {under} AND Object = Node"))
    }

    /// the pairs of a link: from s to o
    fn link(&mut self, p: usize) -> String {
        self.part("s, o", format!("SELECT Subject, Object FROM Triples WHERE Predicate = {p}"))
    }

    /// the pairs of a path entry, each once
    fn path(&mut self, entry: usize) -> String {
        let sql = match self.book.paths[entry] {
            Path::Link(p) => return self.link(p),
            Path::Inv(d) => format!("SELECT o, s FROM {}", self.path(d)),
            Path::Seq(d, e) => {
                let (d, e) = (self.path(d), self.path(e));
                format!("SELECT DISTINCT {d}.s, {e}.o FROM {d} JOIN {e} ON {d}.o = {e}.s")
            }
            Path::Alt(d, e) => format!("SELECT s, o FROM {} UNION SELECT s, o FROM {}", self.path(d), self.path(e)),
            Path::Star(d) => {
                let step = self.path(d);
                self.repeat("SELECT Node, Node FROM Nodes", &step)
            }
            Path::Plus(d) => {
                let step = self.path(d);
                self.repeat(&format!("SELECT s, o FROM {step}"), &step)
            }
        };
        self.part("s, o", sql)
    }

    /// the pairs of a query, and where a part leads on to from there, however often: for the next part, which names itself
    fn repeat(&self, from: &str, step: &str) -> String {
        let all = self.next();
        format!("{from} UNION SELECT {all}.s, {step}.o FROM {all} JOIN {step} ON {all}.o = {step}.s")
    }

    fn end(&mut self, end: End) -> String {
        match end {
            End::Id => self.part("s, o", "SELECT Node, Node FROM Nodes".into()),
            End::Along(e) => self.path(e),
        }
    }

    fn shape(&mut self, shape: usize, keeps: bool) -> String {
        if let Some(part) = self.shapes.get(&(shape, keeps)) {
            return part.clone();
        }
        let part = self.form(self.book.shapes[shape], keeps);
        self.shapes.insert((shape, keeps), part.clone());
        part
    }

    /// the nodes that have at least n ends that meet a part
    fn at_least(&mut self, n: usize, pairs: &str, part: &str) -> String {
        self.nodes(format!("SELECT s FROM {pairs} JOIN {part} ON o = Node GROUP BY s HAVING COUNT(*) >= {n}"))
    }

    fn below(&mut self, n: usize, pairs: &str, part: &str) -> String {
        let more = self.at_least(n, pairs, part);
        self.nodes(format!("SELECT Node FROM Nodes WHERE Node NOT IN {more}"))
    }

    fn count(&mut self, lo: usize, hi: Option<usize>, pairs: &str, part: &str, keeps: bool) -> String {
        match (lo, hi, keeps) {
            (0, None, true) => self.nodes("SELECT Node FROM Nodes".into()),
            (0, None, false) => self.nodes("SELECT Node FROM Nodes WHERE 0".into()),
            (_, None, true) => self.at_least(lo, pairs, part),
            (_, None, false) => self.below(lo, pairs, part),
            (0, Some(h), true) => self.below(h + 1, pairs, part),
            (0, Some(h), false) => self.at_least(h + 1, pairs, part),
            (_, Some(h), true) => self.nodes(format!(
                "SELECT s FROM {pairs} JOIN {part} ON o = Node GROUP BY s HAVING COUNT(*) >= {lo} AND COUNT(*) <= {h}"
            )),
            (_, Some(h), false) => {
                let (low, high) = (self.below(lo, pairs, part), self.at_least(h + 1, pairs, part));
                self.nodes(format!("SELECT Node FROM {low} UNION SELECT Node FROM {high}"))
            }
        }
    }

    /// A condition that is broken by the nodes of a query: these, or all others.
    fn broken(&mut self, sql: String, keeps: bool) -> String {
        let part = self.nodes(sql);
        if keeps { self.others(part) } else { part }
    }

    /// A test that is met by the nodes of a query: these, or all others.
    fn met(&mut self, sql: String, keeps: bool) -> String {
        self.broken(sql, !keeps)
    }

    /// The greatest first end against the least second one, `fails` being the order in which they fail.
    fn pairs(&mut self, path: usize, link: usize, fails: &str, keeps: bool) -> String {
        let (first, second) = (self.path(path), self.link(link));
        let mut bound = |end: String, best: &str| {
            let sql = format!("SELECT s, {best}(Value), COUNT(*) > COUNT(Value) FROM {end} LEFT JOIN Numerics ON o = Node GROUP BY s");
            self.part("s, v, bare", sql)
        };
        let (a, b) = (bound(first, "MAX"), bound(second, "MIN"));
        let sql = format!("SELECT {a}.s FROM {a} JOIN {b} ON {a}.s = {b}.s WHERE {a}.bare OR {b}.bare OR {a}.v {fails} {b}.v");
        self.broken(sql, keeps)
    }

    /// The nodes that keep a form entry, or those that break it.
    fn form(&mut self, entry: usize, keeps: bool) -> String {
        let form = &self.book.forms[entry];
        match form {
            Form::True if keeps => self.nodes("SELECT Node FROM Nodes".into()),
            Form::True => self.nodes("SELECT Node FROM Nodes WHERE 0".into()),
            Form::Shape(s) => self.shape(*s, keeps),
            Form::Not(f) => self.form(*f, !keeps),
            Form::And(f, g) | Form::Or(f, g) => {
                let word = if matches!(form, Form::And(..)) == keeps { "INTERSECT" } else { "UNION" };
                let (f, g) = (self.form(*f, keeps), self.form(*g, keeps));
                self.nodes(format!("SELECT Node FROM {f} {word} SELECT Node FROM {g}"))
            }
            Form::Is(c) => self.met(format!("SELECT Node FROM Nodes WHERE Node = {c}"), keeps),
            Form::Kind(k) => self.met(format!("SELECT Node FROM {}", ["IRIs", "Blanks", "Literals"][*k]), keeps),
            Form::Datatype(t) => self.met(format!("SELECT Node FROM Literals WHERE Type = {t}"), keeps),
            Form::Lang(ls) => self.met(format!("SELECT Node FROM Literals WHERE Lang IN ({})", numbers(ls)), keeps),
            Form::From(x) => self.met(format!("SELECT Node FROM Numerics WHERE Value >= {x}"), keeps),
            Form::Above(x) => self.met(format!("SELECT Node FROM Numerics WHERE Value > {x}"), keeps),
            Form::To(x) => self.met(format!("SELECT Node FROM Numerics WHERE Value <= {x}"), keeps),
            Form::Below(x) => self.met(format!("SELECT Node FROM Numerics WHERE Value < {x}"), keeps),
            Form::Count { path, form, lo, hi } => {
                let (pairs, part) = (self.path(*path), self.form(*form, true));
                self.count(*lo, *hi, &pairs, &part, keeps)
            }
            Form::All(e, f) => {
                let (pairs, part) = (self.path(*e), self.form(*f, true));
                self.broken(format!("SELECT DISTINCT s FROM {pairs} WHERE o NOT IN {part}"), keeps)
            }
            Form::Equal(e, p) => {
                let (a, b) = (self.end(*e), self.link(*p));
                let only = |a: &str, b: &str| format!("SELECT s FROM (SELECT s, o FROM {a} EXCEPT SELECT s, o FROM {b})");
                self.broken(format!("{} UNION {}", only(&a, &b), only(&b, &a)), keeps)
            }
            Form::Apart(e, p) => {
                let (a, b) = (self.end(*e), self.link(*p));
                let both = format!("SELECT s, o FROM {a} INTERSECT SELECT s, o FROM {b}");
                self.broken(format!("SELECT DISTINCT s FROM ({both})"), keeps)
            }
            Form::Closed(ps) => {
                self.broken(format!("SELECT DISTINCT Subject FROM Triples WHERE Predicate NOT IN ({})", numbers(ps)), keeps)
            }
            Form::Less(e, p) => self.pairs(*e, *p, ">=", keeps),
            Form::Lesseq(e, p) => self.pairs(*e, *p, ">", keeps),
            Form::Onelang(e) => {
                let pairs = self.path(*e);
                let langs = format!("{pairs} JOIN Literals ON o = Node WHERE Lang IS NOT NULL");
                self.broken(format!("SELECT DISTINCT s FROM {langs} GROUP BY s, Lang HAVING COUNT(*) > 1"), keeps)
            }
        }
    }
}
