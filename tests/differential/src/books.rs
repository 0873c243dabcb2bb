//! Generated books: small ones, larger ones, books at the limits of document 01, and damaged ones.

use crate::damage::{damage, tokens, NUMBERS, WORDS};
use crate::random::Random;
use std::collections::HashSet;

const NODES: usize = 0;
const LINKS: usize = 1;
const TYPES: usize = 2;
const LANGS: usize = 3;
const SHAPES: usize = 4;

/// a style of names
const SHORT: usize = 3;

/// the link by which a class is a kind of another
const UNDER: &str = "under";

/// How many of each a book gets, if its text has room for them.
#[derive(Default)]
struct Sizes {
    nodes: usize,
    links: usize,
    types: usize,
    langs: usize,
    shapes: usize,
    facts: usize,
    rules: usize,
    forms: usize,
    paths: usize,
    items: usize,
    /// brackets open together in one more shape; 0 for no such shape
    open: usize,
    /// how long the text shall be; 0 for as it comes
    bytes: usize,
}

/// A book's text and what kind of book it is.
pub fn generate(r: &Random) -> (Vec<u8>, &'static str) {
    let (sizes, kind): (fn(&Random) -> Sizes, _) = match r.below(100) {
        0..=3 => return (tokens(r), "tokens"),
        4..=63 => (small, "small"),
        64..=81 => (middling, "middling"),
        82..=98 => (at_a_limit, "at a limit"),
        _ => (large, "large"),
    };
    match r.below(100) {
        0..=24 => {
            let mut text = write(r, sizes(r), 0);
            (0..r.pick(&[1, 1, 1, 2, 3])).for_each(|_| damage(r, &mut text));
            (text, "damaged")
        }
        25..=39 => (write(r, sizes(r), r.pick(&[10, 40, 100, 400])), "with slips"),
        _ => (write(r, sizes(r), 0), kind),
    }
}

fn small(r: &Random) -> Sizes {
    let few = r.pick(&[2, 4, 12]);
    Sizes {
        nodes: r.between(0, few),
        links: r.below(4),
        types: r.below(3),
        langs: r.below(3),
        shapes: r.between(0, 5),
        facts: r.below(3 * few),
        rules: r.between(0, 5),
        forms: r.between(0, 25),
        paths: r.between(0, 30),
        items: r.between(0, 8),
        ..Sizes::default()
    }
}

fn middling(r: &Random) -> Sizes {
    let nodes = r.pick(&[30, 63, 64, 65, 100, 127, 128, 129, 191, 193, 320]);
    Sizes {
        nodes,
        links: r.between(1, 6),
        types: r.between(0, 4),
        langs: r.between(0, 4),
        shapes: r.between(1, 8),
        facts: r.below(4 * nodes),
        rules: r.between(1, 8),
        forms: r.between(1, 50),
        paths: r.between(0, 60),
        items: r.between(0, 20),
        ..Sizes::default()
    }
}

/// One or two numbers just below, at or just past their limits.
fn at_a_limit(r: &Random) -> Sizes {
    let mut s = if r.once_in(2) { small(r) } else { middling(r) };
    for _ in 0..r.between(1, 2) {
        let near = r.below(3);
        match r.below(13) {
            0 => s.nodes = 1023 + near,
            // `a` and `langstring` are there already
            1 => s.links = 254 + near,
            2 => s.types = 30 + near,
            3 => s.langs = 31 + near,
            4 => s.shapes = 63 + near,
            5 => {
                (s.facts, s.nodes, s.links) = (4095 + near, s.nodes.clamp(2, 38), s.links.min(30));
            }
            6 => s.rules = 31 + near,
            7 => s.forms = 111 + near,
            8 => s.paths = 127 + near,
            9 => s.items = 127 + near,
            10 | 11 => s.open = 31 + near,
            _ => s.bytes = 65535 + near,
        }
    }
    s
}

fn large(r: &Random) -> Sizes {
    Sizes {
        nodes: r.between(900, 1024),
        links: r.between(1, 40),
        types: r.between(0, 31),
        langs: r.between(0, 32),
        shapes: r.between(10, 60),
        facts: r.between(1000, 4096),
        rules: r.between(10, 32),
        forms: r.between(80, 110),
        paths: r.between(30, 128),
        items: r.between(0, 128),
        ..Sizes::default()
    }
}

/// The text of a book; where slips are asked for, one word in so many is wrong.
fn write(r: &Random, s: Sizes, slips: usize) -> Vec<u8> {
    // many facts have room in a text only with short names
    let style = if s.facts > 1000 { SHORT } else { r.below(8) };
    let (pools, taken) = Default::default();
    let (skew, hub, run) = (r.pick(&[1, 2, 2, 6]), r.once_in(4), r.once_in(3));
    let kinds = r.once_in(2).then(|| Kinds::any(r));
    let mut w = Writer { r, text: Vec::new(), pools, taken, subjects: Vec::new(), facts: 0, style, skew, hub, run, kinds, slips };
    w.pools[LINKS].push("a".into());
    w.pools[TYPES].push("langstring".into());
    w.book(s);
    w.text
}

/// How classes lie under each other, in a book that has many of them.
#[derive(Clone, Copy)]
struct Kinds {
    /// at most so many of the first things and blanks are classes
    most: usize,
    /// a class is under one that is at most so many places on
    far: usize,
    /// after the last comes the first; else the last is under itself
    round: bool,
    /// the other way: from a later one to an earlier one
    down: bool,
}

impl Kinds {
    fn any(r: &Random) -> Kinds {
        let (most, far) = (r.pick(&[2, 4, 8, 30, 1024]), r.pick(&[1, 1, 2, 1024]));
        Kinds { most, far, round: r.once_in(3), down: r.once_in(2) }
    }
}

struct Writer<'a> {
    r: &'a Random,
    text: Vec<u8>,
    pools: [Vec<String>; 5],
    taken: [HashSet<String>; 5],
    /// things and blanks
    subjects: Vec<usize>,
    /// fact lines so far
    facts: usize,
    /// how names are made
    style: usize,
    /// how much oftener the first of a pool are used
    skew: usize,
    /// one subject has half of the facts
    hub: bool,
    /// most facts are by one link, from a subject to the next and from the last to the first, or to itself
    run: bool,
    /// half of the facts are about classes, and so are half of the rules
    kinds: Option<Kinds>,
    /// one word in so many is wrong; 0 for none
    slips: usize,
}

/// What may still be used of what the entries share.
struct Left {
    paths: usize,
    items: usize,
}

/// a short name for a number
fn code(mut k: usize) -> String {
    const LETTERS: &[u8] = b"bcdefghijklmnopqrstuvwxyz0123456789_-a";
    let mut name = String::new();
    loop {
        name.push(LETTERS[k % 38] as char);
        if k < 38 {
            return name;
        }
        k = k / 38 - 1;
    }
}

impl Writer<'_> {
    fn say(&mut self, s: &str) {
        self.text.extend(s.bytes());
    }

    fn line(&mut self, words: &[&str]) {
        self.say("(");
        self.say(&words.join(" "));
        self.say(")\n");
    }

    fn slip(&self) -> bool {
        self.slips > 0 && self.r.once_in(self.slips)
    }

    /// a new name of the pool, from the next line on
    fn fresh(&mut self, pool: usize) -> String {
        if self.slip() {
            return self.wrong();
        }
        const ODD: [&str; 14] = [
            "true", "id", "node", "a", "-", "_", "0", "-1", "langstring", "fact", "shape", "count", "1024", "9223372036854775808",
        ];
        let k = self.pools[pool].len();
        let mut name = match self.style {
            0 => format!("{}{}", ["n", "p", "t", "l", "s"][pool], k),
            1 if k < ODD.len() => ODD[k].into(),
            2 => format!("{:-<31}", code(k)),
            _ => code(k),
        };
        while self.taken[pool].contains(&name)
            || (pool == LINKS && (name == "id" || name == "a"))
            || (pool == TYPES && name == "langstring")
        {
            name = format!("{}_{}", code(self.r.below(2000)), code(k));
        }
        self.taken[pool].insert(name.clone());
        name
    }

    fn define(&mut self, pool: usize, name: String) {
        self.pools[pool].push(name);
    }

    /// a word that is hardly the right one: any name of the book, or none
    fn wrong(&self) -> String {
        let pool = &self.pools[self.r.below(5)];
        if pool.is_empty() || self.r.once_in(3) {
            self.r.pick(&WORDS).to_string()
        } else {
            self.r.pick(pool)
        }
    }

    fn number(&self) -> String {
        if self.slip() {
            return self.r.pick(&NUMBERS).to_string();
        }
        match self.r.below(12) {
            0 => "9223372036854775807".into(),
            1 => "-9223372036854775808".into(),
            2 => (self.r.next() as i64).to_string(),
            _ => (self.r.below(7) as i64 - 3).to_string(),
        }
    }

    /// a number below n, oftener one of the first
    fn early(&self, n: usize) -> usize {
        (0..self.skew).map(|_| self.r.below(n)).min().unwrap()
    }

    fn used(&self, pool: usize) -> String {
        if self.slip() {
            return self.wrong();
        }
        self.pools[pool][self.early(self.pools[pool].len())].clone()
    }

    fn book(&mut self, s: Sizes) {
        // a place for each line: definitions rather early, rules rather late
        let mut lines: Vec<(usize, u8)> = Vec::new();
        // one of the links, now and then after some of the rules
        let under = s.links.min(self.kinds.iter().len());
        for (n, from, kind) in [
            (s.links - under, 0, b'p'),
            (under, self.r.pick(&[0, 60]), b'u'),
            (s.types, 0, b't'),
            (s.langs, 0, b'l'),
            (s.nodes, 20, b'n'),
            (s.facts, 50, b'f'),
            (s.shapes, 50, b's'),
            (s.rules, 80, b'r'),
        ] {
            (0..n).for_each(|_| lines.push((from + self.r.below(60), kind)));
        }
        lines.sort();
        let mut forms = s.forms.max(s.shapes);
        let mut shapes = s.shapes;
        let mut left = Left { paths: s.paths, items: s.items };
        for (_, kind) in lines {
            match kind {
                b'p' => self.pool_line("link", LINKS),
                b'u' => self.under_line(),
                b't' => self.pool_line("type", TYPES),
                b'l' => self.pool_line("lang", LANGS),
                b'n' => self.node_line(),
                b'f' => self.fact_line(),
                b's' => {
                    shapes -= 1;
                    let most = forms - shapes;
                    let size = if shapes == 0 { most } else { self.r.between(1, most.min(2 * most / (shapes + 1) + 1)) };
                    forms -= size;
                    self.shape_line(size, &mut left);
                }
                _ => self.rule_line(),
            }
        }
        self.use_up(&s, left);
        if s.bytes > 0 {
            self.pad(s.bytes);
        }
    }

    fn pool_line(&mut self, word: &str, pool: usize) {
        let name = self.fresh(pool);
        self.line(&[word, &name]);
        self.define(pool, name);
    }

    fn under_line(&mut self) {
        self.line(&["link", UNDER]);
        self.define(LINKS, UNDER.into());
    }

    fn node_line(&mut self) {
        let name = self.fresh(NODES);
        let kind = self.r.below(10);
        if (4..8).contains(&kind) && self.pools[TYPES].len() > 1 {
            let k = if self.slip() { 0 } else { self.r.between(1, self.pools[TYPES].len() - 1) };
            let datatype = self.pools[TYPES][k].clone();
            let value = self.number();
            if kind == 4 {
                self.line(&["text", &name, &datatype])
            } else {
                self.line(&["number", &name, &datatype, &value])
            }
        } else if kind >= 8 && !self.pools[LANGS].is_empty() {
            let lang = self.used(LANGS);
            self.line(&["words", &name, &lang]);
        } else {
            self.subjects.push(self.pools[NODES].len());
            self.line(&[if kind == 0 { "blank" } else { "thing" }, &name]);
        }
        self.define(NODES, name);
    }

    fn fact_line(&mut self) {
        if self.subjects.is_empty() || self.text.len() > 62_000 {
            return;
        }
        if let Some(kinds) = self.kinds.filter(|_| self.r.once_in(2)) {
            return self.kind_line(kinds);
        }
        if self.run && !self.r.once_in(4) {
            return self.run_line();
        }
        let k = match self.hub && self.r.once_in(2) {
            true => self.subjects[0],
            false => self.subjects[self.early(self.subjects.len())],
        };
        let subject = if self.slip() { self.used(NODES) } else { self.pools[NODES][k].clone() };
        let link = self.used(LINKS);
        let object = if self.hub { self.r.pick(&self.pools[NODES]) } else { self.used(NODES) };
        self.line(&["fact", &subject, &link, &object]);
        self.facts += 1;
    }

    /// the next fact of a run, now and then to the subject itself
    fn run_line(&mut self) {
        let all = self.subjects.len();
        let next = if self.r.once_in(20) { self.facts } else { self.facts + 1 };
        let [subject, object] = [self.facts, next].map(|k| self.pools[NODES][self.subjects[k % all]].clone());
        let link = self.pools[LINKS][1.min(self.pools[LINKS].len() - 1)].clone();
        self.line(&["fact", &subject, &link, &object]);
        self.facts += 1;
    }

    /// how many things and blanks are classes
    fn classes(&self, kinds: Kinds) -> usize {
        self.subjects.len().min(kinds.most)
    }

    fn class(&self, k: usize) -> String {
        if self.slip() {
            return self.wrong();
        }
        self.pools[NODES][self.subjects[k]].clone()
    }

    /// a fact about a class: that it is under another, or that something is one of it; now and then with any node
    fn kind_line(&mut self, kinds: Kinds) {
        let (classes, defined) = (self.classes(kinds), self.pools[LINKS].iter().any(|link| link == UNDER));
        let k = self.r.below(classes);
        let next = k + self.r.between(1, kinds.far);
        let next = if kinds.round { next % classes } else { next.min(classes - 1) };
        let (subject, link, object) = match defined && self.r.once_in(2) {
            true if kinds.down => (self.class(next), UNDER, self.class(k)),
            true => (self.class(k), UNDER, self.class(next)),
            false => (self.class(self.r.below(self.subjects.len())), "a", self.class(k)),
        };
        let object = if self.r.once_in(12) { self.used(NODES) } else { object };
        self.line(&["fact", &subject, link, &object]);
        self.facts += 1;
    }

    fn rule_line(&mut self) {
        if self.pools[SHAPES].is_empty() {
            return;
        }
        let shape = self.used(SHAPES);
        if let Some(kinds) = self.kinds.filter(|_| !self.subjects.is_empty() && self.r.once_in(2)) {
            let class = self.class(self.r.below(self.classes(kinds)));
            return self.line(&["rule", &shape, &format!("(class {class})")]);
        }
        let target = match self.r.below(6) {
            0 if !self.pools[NODES].is_empty() => format!("(node {})", self.used(NODES)),
            1 if !self.pools[NODES].is_empty() => format!("(class {})", self.used(NODES)),
            2 | 3 => format!("(objects {})", self.used(LINKS)),
            _ => format!("(subjects {})", self.used(LINKS)),
        };
        self.line(&["rule", &shape, &target]);
    }

    fn shape_line(&mut self, size: usize, left: &mut Left) {
        let name = self.fresh(SHAPES);
        self.say(&format!("(shape {name} "));
        self.form(size, 31, left);
        self.say(")\n");
        self.define(SHAPES, name);
    }

    /// a form of this many entries, if so many brackets may still be opened
    fn form(&mut self, size: usize, open: usize, left: &mut Left) {
        if size == 1 || open < 3 {
            return self.leaf(open, left);
        }
        if size == 2 || self.r.once_in(2) && size < (1 << (open - 2).min(20)) {
            let word = match self.r.below(4) {
                1 if left.paths > 0 => "all",
                2 | 3 if left.paths > 0 => "count",
                _ => "not",
            };
            self.say(&format!("({word} "));
            if word == "count" {
                let hi = if self.r.once_in(2) { "*".into() } else { self.bound() };
                self.say(&format!("{} {hi} ", self.bound()));
            }
            if word != "not" {
                self.short_path(open - 1, left);
                self.say(" ");
            }
            self.form(size - 1, open - 1, left);
        } else {
            let first = self.r.between(1, size - 2);
            self.say(if self.r.once_in(2) { "(and " } else { "(or " });
            self.form(first, open - 1, left);
            self.say(" ");
            self.form(size - 1 - first, open - 1, left);
        }
        self.say(")");
    }

    fn bound(&self) -> String {
        if self.slip() {
            return self.r.pick(&NUMBERS).to_string();
        }
        match self.r.below(12) {
            0 => "1024".into(),
            1 => self.r.below(1024).to_string(),
            _ => self.r.below(4).to_string(),
        }
    }

    fn leaf(&mut self, open: usize, left: &mut Left) {
        if open == 0 {
            return self.say("true");
        }
        loop {
            match self.r.below(18) {
                0 => return self.say("true"),
                1 if !self.pools[NODES].is_empty() => {
                    let name = self.used(NODES);
                    return self.say(&format!("(is {name})"));
                }
                2 | 3 if !self.pools[SHAPES].is_empty() => {
                    let k = self.r.below(self.pools[SHAPES].len());
                    let name = self.pools[SHAPES][k].clone();
                    return self.say(&format!("(shape {name})"));
                }
                4 => {
                    let kind = self.r.pick(&["thing", "blank", "literal"]);
                    return self.say(&format!("(kind {kind})"));
                }
                5 => {
                    let name = self.used(TYPES);
                    return self.say(&format!("(datatype {name})"));
                }
                6 | 7 => {
                    let (word, value) = (self.r.pick(&["from", "above", "to", "below"]), self.number());
                    return self.say(&format!("({word} {value})"));
                }
                8 => return self.list("lang", LANGS, left),
                9 => return self.list("closed", LINKS, left),
                10 | 11 => {
                    self.say(self.r.pick(&["(equal ", "(apart "]));
                    if left.paths == 0 || self.r.once_in(4) {
                        self.say("id")
                    } else {
                        self.short_path(open - 1, left)
                    }
                    return self.last_link();
                }
                12..=15 if left.paths > 0 => {
                    self.say(self.r.pick(&["(less ", "(lesseq "]));
                    self.short_path(open - 1, left);
                    return self.last_link();
                }
                16 if left.paths > 0 => {
                    self.say("(onelang ");
                    self.short_path(open - 1, left);
                    return self.say(")");
                }
                _ => {}
            }
        }
    }

    fn last_link(&mut self) {
        let link = self.used(LINKS);
        self.say(&format!(" {link})"));
    }

    fn list(&mut self, word: &str, pool: usize, left: &mut Left) {
        self.say(&format!("({word}"));
        let most = if self.pools[pool].is_empty() { 0 } else { left.items.min(4) };
        for _ in 0..self.r.between(0, most) {
            let name = self.used(pool);
            self.say(&format!(" {name}"));
            left.items -= 1;
        }
        self.say(")");
    }

    fn short_path(&mut self, open: usize, left: &mut Left) {
        let size = (self.r.pick(&[1, 1, 1, 2, 3, 5, 9])).min(left.paths);
        left.paths -= size;
        self.path(size, open);
    }

    /// a path of this many entries, if so many brackets may still be opened
    fn path(&mut self, size: usize, open: usize) {
        if size == 1 || open == 0 {
            let link = self.used(LINKS);
            return self.say(&link);
        }
        if size == 2 || self.r.once_in(3) && size < (1 << (open - 1).min(20)) {
            self.say(self.r.pick(&["(inv ", "(star ", "(plus "]));
            self.path(size - 1, open - 1);
        } else {
            // where brackets are short, both parts alike
            let first = if size > 4 * open { (size - 1) / 2 } else { self.r.between(1, size - 2) };
            self.say(if self.r.once_in(2) { "(seq " } else { "(alt " });
            self.path(first, open - 1);
            self.say(" ");
            self.path(size - 1 - first, open - 1);
        }
        self.say(")");
    }

    /// one shape more for each of paths, items and brackets that shall come near their limits
    fn use_up(&mut self, s: &Sizes, left: Left) {
        if s.paths > 120 && left.paths > 0 {
            let name = self.fresh(SHAPES);
            self.say(&format!("(shape {name} (onelang "));
            self.path(left.paths, 30);
            self.say("))\n");
            self.define(SHAPES, name);
        }
        if s.items > 120 && left.items > 0 {
            let name = self.fresh(SHAPES);
            self.say(&format!("(shape {name} (closed"));
            (0..left.items).for_each(|_| self.list_item());
            self.say("))\n");
            self.define(SHAPES, name);
        }
        if s.open > 0 {
            let name = self.fresh(SHAPES);
            let (first, each, last): (_, &[_], _) = match self.r.once_in(2) {
                true => ("(not ", &["(not "], "true"),
                false => ("(onelang ", &["(inv ", "(star ", "(plus "], "a"),
            };
            let inner: String = (0..s.open - 2).map(|_| self.r.pick(each)).collect();
            self.say(&format!("(shape {name} {first}{inner}{last}{}\n", ")".repeat(s.open)));
            self.define(SHAPES, name);
        }
        if s.rules < 30 {
            self.rule_line();
        }
    }

    fn list_item(&mut self) {
        let name = self.used(LINKS);
        self.say(&format!(" {name}"));
    }

    /// facts and things until the text has so many bytes
    fn pad(&mut self, bytes: usize) {
        while self.text.len() < 62_000 && self.facts < 4090 && !self.subjects.is_empty() {
            self.fact_line();
        }
        while self.text.len() + 10 <= bytes {
            // a line takes 10 to 40 bytes; what is left after it is nothing or enough for another
            let rest = bytes - self.text.len();
            let length = if rest <= 40 { rest - 9 } else { self.r.between(7, 31).min(rest - 19) };
            let name = if rest <= 40 { "z".repeat(length) } else { format!("{:z<length$}", self.text.len()) };
            self.line(&["thing", &name]);
        }
    }
}
