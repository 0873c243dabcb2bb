//! The books that are timed, made from fixed seeds: the same bytes on every machine.

mod kinds;
mod repeats;

/// splitmix64
struct Dice(u64);

impl Dice {
    fn below(&mut self, n: usize) -> usize {
        self.0 = self.0.wrapping_add(0x9E3779B97F4A7C15);
        let x = (self.0 ^ (self.0 >> 30)).wrapping_mul(0xBF58476D1CE4E5B9);
        let x = (x ^ (x >> 27)).wrapping_mul(0x94D049BB133111EB);
        ((x ^ (x >> 31)) % n as u64) as usize
    }

    fn of<'a>(&mut self, list: &[&'a str]) -> &'a str {
        list[self.below(list.len())]
    }
}

/// A node's name: its number in base 36, so that 3,600 facts stay under 65,536 bytes.
fn name(k: usize) -> String {
    let digit = |d: usize| char::from(b"0123456789abcdefghijklmnopqrstuvwxyz"[d]);
    if k < 36 { digit(k).to_string() } else { format!("{}{}", digit(k / 36), digit(k % 36)) }
}

/// A book's name and its bytes.
pub type Book = (&'static str, String);

/// The books of the table: every system is timed on each.
pub fn timed() -> Vec<Book> {
    vec![
        ("small", include_str!("../../../examples/book-b.book").to_string()),
        ("middle", rig(&Size { nodes: 300, facts: 1500, rules: 20, forms: 60, paths: 66 })),
        ("full", rig(&Size { nodes: 700, facts: 3600, rules: 32, forms: 105, paths: 116 })),
        ("names", names()),
        ("hub", hub()),
        ("nested", nested()),
        ("chains", chains()),
        ("pairs", pairs()),
        ("equals", equals()),
        ("trees", repeats::trees()),
        ("cable", repeats::run()),
        ("ring", repeats::ring()),
        ("kinds", kinds::chain()),
    ]
}

/// Books with repeats or with many classes, made to be slow: the proved program alone is timed on each.
pub fn slow() -> Vec<Book> {
    let kinds = [("kinds", kinds::chain()), ("kinds-ring", kinds::ring())];
    repeats::slow().into_iter().chain(kinds).collect()
}

// ---- rigs: parts, links between parts, links to numbers, words and texts; rules with conditions of every form

struct Size {
    nodes: usize,
    facts: usize,
    rules: usize,
    forms: usize,
    paths: usize,
}

const PARTS: [&str; 4] = ["f", "g", "t", "z"];
const NUMBERS: [&str; 3] = ["h", "m", "w"];
const WORDS: [&str; 2] = ["l", "n"];
const TEXT: &str = "s";
const CLASSES: usize = 6;

/// The nodes of a rig, by kind, in this order.
struct Nodes {
    things: usize,
    blanks: usize,
    numbers: usize,
    words: usize,
    texts: usize,
}

impl Nodes {
    fn of(n: usize) -> Nodes {
        let (blanks, numbers, words, texts) = (n / 20, n / 6, n / 12, n / 30);
        Nodes { things: n - blanks - numbers - words - texts, blanks, numbers, words, texts }
    }

    fn parts(&self) -> usize {
        self.things + self.blanks
    }

    /// a node that a link may lead to
    fn end(&self, link: &str, dice: &mut Dice) -> usize {
        let past = self.parts();
        if NUMBERS.contains(&link) {
            past + dice.below(self.numbers)
        } else if WORDS.contains(&link) {
            past + self.numbers + dice.below(self.words)
        } else if link == TEXT {
            past + self.numbers + self.words + dice.below(self.texts)
        } else {
            CLASSES + dice.below(past - CLASSES)
        }
    }
}

fn rig(size: &Size) -> String {
    let mut book = String::new();
    let mut line = |text: String| book += &format!("({text})\n");
    for link in PARTS.iter().chain(&NUMBERS).chain(&WORDS).chain(&[TEXT]) {
        line(format!("link {link}"));
    }
    ["i", "j", "x"].iter().for_each(|t| line(format!("type {t}")));
    ["d", "e", "f", "n"].iter().for_each(|l| line(format!("lang {l}")));
    let mut dice = Dice(size.nodes as u64);
    let nodes = Nodes::of(size.nodes);
    for k in 0..size.nodes {
        let past = |n: usize| k >= n;
        let (p, q) = (nodes.parts(), nodes.parts() + nodes.numbers);
        line(if past(q + nodes.words) {
            format!("text {} x", name(k))
        } else if past(q) {
            format!("words {} {}", name(k), dice.of(&["d", "e", "f", "n"]))
        } else if past(p) {
            // every number once, in an order of its own
            format!("number {} {} {}", name(k), dice.of(&["i", "j"]), (k - p) * 7 % nodes.numbers * 3)
        } else if past(nodes.things) {
            format!("blank {}", name(k))
        } else {
            format!("thing {}", name(k))
        });
    }
    for k in 0..size.facts {
        let part = CLASSES + k % (nodes.parts() - CLASSES);
        line(if k < nodes.parts() - CLASSES {
            format!("fact {} a {}", name(part), name(dice.below(CLASSES)))
        } else {
            let link = dice.of(&["f", "g", "t", "z", "f", "g", "h", "m", "w", "h", "l", "n", "s"]);
            format!("fact {} {link} {}", name(part), name(nodes.end(link, &mut dice)))
        });
    }
    book + &rules(size, &nodes)
}

/// The first seed's shapes and rules with exactly the wanted number of path entries.
fn rules(size: &Size, nodes: &Nodes) -> String {
    let made = |seed| {
        let mut forms = Forms { dice: Dice(seed), nodes, paths: 0, shapes: 0 };
        let mut text = String::new();
        for r in 0..size.rules {
            let budget = size.forms * (r + 1) / size.rules - size.forms * r / size.rules;
            let form = forms.form(budget);
            text += &format!("(shape {} {form})\n", name(r));
            forms.shapes += 1;
        }
        for r in 0..size.rules {
            text += &format!("(rule {} ({}))\n", name(r), forms.target());
        }
        (forms.paths == size.paths).then_some(text)
    };
    (1..).find_map(made).unwrap()
}

struct Forms<'a> {
    dice: Dice,
    nodes: &'a Nodes,
    /// path entries so far
    paths: usize,
    shapes: usize,
}

impl Forms<'_> {
    fn link(&mut self, links: &[&str]) -> String {
        self.paths += 1;
        self.dice.of(links).to_string()
    }

    /// a path from part to part
    fn between(&mut self) -> String {
        match self.dice.below(6) {
            0 => {
                self.paths += 1;
                format!("(inv {})", self.link(&PARTS))
            }
            1 => {
                self.paths += 1;
                format!("(alt {} {})", self.link(&PARTS), self.link(&PARTS))
            }
            _ => self.link(&PARTS),
        }
    }

    /// a path from a part along one of the links
    fn along(&mut self, links: &[&str]) -> String {
        match self.dice.below(5) {
            0 | 1 => {
                self.paths += 1;
                format!("(seq {} {})", self.between(), self.link(links))
            }
            _ => self.link(links),
        }
    }

    /// a form of exactly n entries
    fn form(&mut self, n: usize) -> String {
        match n {
            1 if self.dice.below(3) == 0 => self.test(),
            1 => self.condition(),
            _ => match self.dice.below(6) {
                0 => format!("(not {})", self.form(n - 1)),
                1 | 2 if n > 2 => {
                    let k = 1 + self.dice.below(n - 2);
                    let word = self.dice.of(&["and", "or"]);
                    format!("({word} {} {})", self.form(k), self.form(n - 1 - k))
                }
                3 => format!("(all {} {})", self.between(), self.form(n - 1)),
                _ => {
                    let lo = self.dice.below(3);
                    let hi = if self.dice.below(2) == 0 { "*".to_string() } else { (lo + self.dice.below(3)).to_string() };
                    format!("(count {lo} {hi} {} {})", self.between(), self.form(n - 1))
                }
            },
        }
    }

    /// a test of one node
    fn test(&mut self) -> String {
        match self.dice.below(7) {
            0 => format!("(kind {})", self.dice.of(&["thing", "blank", "literal"])),
            1 => format!("(datatype {})", self.dice.of(&["i", "j", "x", "langstring"])),
            2 => format!("(lang {})", self.dice.of(&["d e", "f n", "e"])),
            3 => format!("({} {})", self.dice.of(&["from", "above", "to", "below"]), self.dice.below(3 * self.nodes.numbers)),
            4 => format!("(is {})", name(CLASSES + self.dice.below(self.nodes.things - CLASSES))),
            5 if self.shapes > 0 => format!("(shape {})", name(self.dice.below(self.shapes))),
            _ => "true".to_string(),
        }
    }

    /// a condition on a node's links
    fn condition(&mut self) -> String {
        match self.dice.below(7) {
            0 => format!("(equal {} {})", self.along(&PARTS), self.dice.of(&PARTS)),
            1 => format!("(apart {} {})", self.along(&PARTS), self.dice.of(&PARTS)),
            2 => format!("({} id {})", self.dice.of(&["equal", "apart"]), self.dice.of(&PARTS)),
            3 => format!("(closed a {})", self.dice.of(&["f g t z h", "f g h m w l n", "t z h m w l n s"])),
            4 => format!("(less {} {})", self.along(&NUMBERS), self.dice.of(&NUMBERS)),
            5 => format!("(lesseq {} {})", self.along(&NUMBERS), self.dice.of(&NUMBERS)),
            _ => format!("(onelang {})", self.along(&WORDS)),
        }
    }

    fn target(&mut self) -> String {
        match self.dice.below(8) {
            0 => format!("node {}", name(CLASSES + self.dice.below(self.nodes.things - CLASSES))),
            1 => format!("objects {}", self.dice.of(&["f", "h", "l"])),
            2 | 3 => format!("subjects {}", self.dice.of(&["f", "m", "n", "t"])),
            _ => format!("class {}", name(self.dice.below(CLASSES))),
        }
    }
}

// ---- the worst made

/// 500 names of 31 bytes that differ in the last three, in 600 facts: the most that finding a name costs.
fn names() -> String {
    let long = |k: usize| format!("projector-of-the-north-dome-{k:03}");
    let mut dice = Dice(500);
    let mut book = String::from("(link p)\n");
    (0..500).for_each(|k| book += &format!("(thing {})\n", long(k)));
    (0..600).for_each(|_| book += &format!("(fact {} p {})\n", long(dice.below(500)), long(dice.below(500))));
    book + "(shape s (count 1 1 p true))\n(rule s (subjects p))\n"
}

/// 1,024 nodes: `parts` things that lead by p to node 0, the hub, then the others by their lines; the hub leads by q to `ends`.
fn star(parts: usize, other: impl Fn(usize) -> String, ends: std::ops::Range<usize>) -> String {
    let mut book = String::from("(link p)\n(link q)\n(link r)\n(type i)\n");
    (0..32).for_each(|k| book += &format!("(lang {})\n", name(k)));
    (0..parts).for_each(|k| book += &format!("(thing {})\n", name(k)));
    (parts..1024).for_each(|k| book += &other(k));
    (0..parts).for_each(|k| book += &format!("(fact {} p 0)\n", name(k)));
    ends.for_each(|k| book += &format!("(fact 0 q {})\n", name(k)));
    book
}

/// That many shapes, the first 32 with a rule for every part.
fn shapes_and_rules(count: usize, form: impl Fn(usize) -> String) -> String {
    let shapes = (0..count).map(|k| format!("(shape {} {})\n", name(k), form(k)));
    shapes.chain((0..count.min(32)).map(|k| format!("(rule {} (subjects p))\n", name(k)))).collect()
}

/// 42 `onelang`, each over 1,024 ends from each of 992 nodes: 32 ends with a language, no two the same. Every fourth has a `not`.
fn hub() -> String {
    let form = |k| if k % 4 == 3 { "(not (onelang (seq p q)))" } else { "(onelang (seq p q))" };
    star(992, |k| format!("(words {} {})\n", name(k), name(k - 992)), 0..1024) + &shapes_and_rules(42, |k| form(k).to_string())
}

/// `all` in `all`, thirty deep and twelve deep, over 1,024 ends from each of 1,023 nodes.
fn nested() -> String {
    let deep = |n: usize, leaf: &str| format!("{}{leaf}{}", "(all (seq p q) ".repeat(n), ")".repeat(n));
    let mut book = star(1023, |k| format!("(blank {})\n", name(k)), 0..1024);
    book += &format!("(shape 0 {})\n(shape 1 {})\n", deep(30, "true"), deep(12, "(kind thing)"));
    book + "(rule 0 (subjects p))\n(rule 1 (subjects p))\n"
}

/// Two paths of thirty links in `seq`, over three facts from each of 1,024 nodes.
fn chains() -> String {
    let mut book = String::from("(link p)\n(link q)\n");
    (0..1024).for_each(|k| book += &format!("(thing {})\n", name(k)));
    for k in 0..1024 {
        for (link, to) in [("p", k + 1), ("p", k * 3 + 1), ("q", k * 5 + 2)] {
            book += &format!("(fact {} {link} {})\n", name(k), name(to % 1024));
        }
    }
    let chain = |links: [&str; 2]| {
        let steps: String = (0..29).map(|k| format!("(seq {} ", links[k % 2])).collect();
        format!("{steps}{}{}", links[1], ")".repeat(29))
    };
    book += &format!("(shape 0 (count 1000 * {} true))\n", chain(["p", "q"]));
    book += &format!("(shape 1 (all {} (not (is 7))))\n", chain(["q", "p"]));
    book + "(rule 0 (subjects p))\n(rule 1 (subjects p))\n"
}

/// 41 `lesseq`: from each of 400 nodes 600 numbers by the hub, lowest first, against five of its own; one node in ten fails, by
/// its last pair.
fn pairs() -> String {
    let mut book = star(400, |k| format!("(number {} i {})\n", name(k), k), 400..1000);
    for k in 0..400 {
        for j in 0..5 {
            let own = if k % 10 == 9 && j == 4 { 998 } else { 1000 + (k + 5 * j) % 24 };
            book += &format!("(fact {} r {})\n", name(k), name(own));
        }
    }
    book + &shapes_and_rules(41, |_| "(lesseq (seq p q) r)".to_string())
}

/// 42 `lesseq`: from each of three nodes 800 numbers by the hub, all equal, against the same 800: no pair ends the search.
fn equals() -> String {
    let mut book = star(3, |k| format!("(number {} i 7)\n", name(k)), 3..803);
    for k in 0..3 {
        (3..803).for_each(|end| book += &format!("(fact {} r {})\n", name(k), name(end)));
    }
    book + &shapes_and_rules(42, |_| "(lesseq (seq p q) r)".to_string())
}
