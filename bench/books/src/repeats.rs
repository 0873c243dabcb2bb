//! Books in which paths repeat (`star`, `plus`): three that are timed beside other systems, and those made to be slow.

use crate::{name, shapes_and_rules, Book, Dice};

/// the most nodes
const ALL: usize = 1024;

/// These links, and a box for each number below n.
fn boxes(links: &[String], n: usize) -> String {
    let links = links.iter().map(|link| format!("(link {link})\n"));
    links.chain((0..n).map(|k| format!("(thing {})\n", name(k)))).collect()
}

fn fact(from: usize, link: &str, to: usize) -> String {
    format!("(fact {} {link} {})\n", name(from % ALL), name(to % ALL))
}

/// Facts by a link from each of these boxes to the next, from the last of all to the first.
fn along(link: &str, boxes: std::ops::Range<usize>) -> String {
    boxes.map(|k| fact(k, link, k + 1)).collect()
}

fn chain() -> String {
    boxes(&["p".into()], ALL) + &along("p", 0..ALL - 1)
}

fn closed_chain() -> String {
    boxes(&["p".into()], ALL) + &along("p", 0..ALL)
}

/// From each box by p to the next and to any, by q to any: every box leads to every other.
fn dense() -> String {
    let mut dice = Dice(ALL as u64);
    let mut any = |link: &str| (0..ALL).map(|k| fact(k, link, dice.below(ALL))).collect::<String>();
    boxes(&["p".into(), "q".into()], ALL) + &along("p", 0..ALL) + &any("p") + &any("q")
}

// ---- timed beside other systems

/// Boxes in trees, three on each splitter; one in 37 is fed by nothing, and two runs loop. Each has its watts, some a label and
/// some a limit for all that hangs on them.
pub fn trees() -> String {
    const BOXES: usize = 560;
    const WATTS: usize = 100;
    let mut dice = Dice(37);
    let links = ["p", "w", "m", "l"].map(String::from);
    let mut book = boxes(&links, BOXES) + "(type i)\n(lang d)\n(lang e)\n(thing lamp)\n(thing splitter)\n";
    (0..WATTS).for_each(|k| book += &format!("(number w{k} i {})\n", 7 * k % WATTS));
    (0..24).for_each(|k| book += &format!("(words l{k} {})\n", if k % 2 == 0 { "d" } else { "e" }));
    for k in 0..BOXES {
        if k > 0 && k % 37 != 36 {
            book += &fact((k - 1) / 3, "p", k);
        }
        let (class, here) = (if 3 * k + 1 < BOXES { "splitter" } else { "lamp" }, name(k));
        book += &format!("(fact {here} a {class})\n(fact {here} w w{})\n", dice.below(WATTS - 4));
        if k % 3 == 0 {
            book += &format!("(fact {here} l l{})\n", dice.below(24));
        }
        if k % 5 == 0 {
            book += &format!("(fact {here} m w{})\n", WATTS - 1 - dice.below(12));
        }
    }
    book += &[(400, 44), (530, 6)].map(|(from, to)| fact(from, "p", to)).concat();
    let rules = [
        ("(count 1 * (plus (inv p)) (is 0))", "class lamp"),
        ("(apart (plus (inv p)) p)", "class splitter"),
        ("(count 0 40 (star p) true)", "class splitter"),
        ("(lesseq (seq (star p) w) m)", "subjects m"),
        ("(onelang (seq (star p) l))", "subjects l"),
        ("(all (star p) (count 1 1 w true))", "class splitter"),
        ("(equal (plus p) p)", "subjects p"),
        ("(not (count 2 4 (star (alt p (inv p))) (count 0 0 p true)))", "objects p"),
    ];
    let text = rules.iter().enumerate().map(|(k, (form, target))| format!("(shape {k} {form})\n(rule {k} ({target}))\n"));
    book + &text.collect::<String>()
}

/// A chain of 1,024 boxes and one `star`.
pub fn run() -> String {
    chain() + &shapes_and_rules(1, |_| "(count 512 * (star p) true)".into())
}

/// The chain closed to a ring, and one `plus`.
pub fn ring() -> String {
    closed_chain() + &shapes_and_rules(1, |_| "(count 0 1023 (plus p) true)".into())
}

// ---- made to be slow

pub fn slow() -> Vec<Book> {
    let rings: Vec<String> = vec!["p".into(); 15];
    let turns: Vec<String> = (0..15).map(|k| ["p", "q"][k % 2].into()).collect();
    vec![
        ("cable", run()),
        ("ring", ring()),
        ("cable-64", chain() + &sixty_four("star")),
        ("ring-64", closed_chain() + &sixty_four("plus")),
        ("dense-64", dense() + &sixty_four("star")),
        ("ring-stars", closed_chain() + &stacked(["star", "plus"])),
        ("ring-turns", closed_chain() + &stacked(["star", "inv"])),
        ("dense-stars", dense() + &stacked(["plus", "star"])),
        ("dense-turns", dense() + &stacked(["inv", "star"])),
        ("nest-3", nest(3, true)),
        ("nest-4", nest(4, true)),
        ("nest-8", nest(8, true)),
        ("nest-15", nest(15, true)),
        ("nest-15-after", nest(15, false)),
        ("nest-ring", closed_chain() + &nests(&rings, true)),
        ("nest-dense", dense() + &nests(&turns, true)),
        ("nest-dense-after", dense() + &nests(&turns, false)),
        ("nest-dense-25", dense() + &nests(&turns[..2], true)),
        ("dense-seqs", dense() + &after_each_other("seq")),
        ("dense-alts", dense() + &after_each_other("alt")),
        ("lesseq-64", lesseq()),
        ("onelang-64", onelang()),
        ("sixteen", closed_chain() + &at_sixteen()),
        ("all-in-all", closed_chain() + &all_in_all()),
        ("all-in-all-dense", dense() + &all_in_all()),
    ]
}

/// A repeat of one link in as many conditions as there is room for: 64, most of them counted from both sides.
fn sixty_four(word: &str) -> String {
    shapes_and_rules(64, |k| match k {
        0..=47 => format!("(count 1 1023 ({word} p) true)"),
        _ => format!("(onelang ({word} p))"),
    })
}

/// A question about the first box comes to sixteen others, each with 54 repeats of its own to look along.
fn at_sixteen() -> String {
    let mut forms: Vec<String> = vec!["(onelang (star p))".into(); 54];
    while forms.len() > 1 {
        forms = forms.chunks(2).map(|two| if let [a, b] = two { format!("(and {a} {b})") } else { two.concat() }).collect();
    }
    let facts: String = (0..16).map(|k| fact(0, "q", 60 * k + 7)).collect();
    format!("(link q)\n{facts}(shape s (all q {}))\n(rule s (node {}))\n", forms[0], name(0))
}

fn few_ends(path: &str) -> String {
    format!("(count 0 40 {path} true)")
}

/// Two words by turns, thirty in each other, as often as there is room for: 124 path entries.
fn stacked(words: [&str; 2]) -> String {
    let open: String = (0..30).map(|k| format!("({} ", words[k % 2])).collect();
    shapes_and_rules(4, |_| few_ends(&format!("{open}p{}", ")".repeat(30))))
}

/// `(star (seq (star (seq (star P) Q)) R))` and so on, along these links, or with the links first; as often as there is room for.
fn nests(links: &[String], before: bool) -> String {
    let mut path = format!("(star {})", links[0]);
    for link in &links[1..] {
        path = if before { format!("(star (seq {path} {link}))") } else { format!("(star (seq {link} {path}))") };
    }
    shapes_and_rules(128 / (3 * links.len() - 1), |_| few_ends(&path))
}

/// Such nests with a link, and a part of the chain, for each of the repeats: the chain is followed from its first part to its last.
fn nest(levels: usize, before: bool) -> String {
    let mut links: Vec<String> = (0..levels).map(|k| if k == 0 { "p".into() } else { format!("b{k}") }).collect();
    let part = ALL / levels;
    let facts: String = links.iter().enumerate().map(|(k, link)| along(link, k * part..((k + 1) * part).min(ALL - 1))).collect();
    let book = boxes(&links, ALL) + &facts;
    if !before {
        links.reverse();
    }
    book + &nests(&links, before)
}

/// Paths of thirty and of thirteen repeats, each two joined by a word.
fn after_each_other(word: &str) -> String {
    let path = |n: usize| format!("{}(star p){}", format!("({word} (star p) ").repeat(n), ")".repeat(n));
    shapes_and_rules(2, |k| few_ends(&path([29, 12][k])))
}

/// 64 `lesseq`: 1,019 equal numbers, and then the boxes that lead to them, against 480 of them from each of four boxes. Only the
/// last pairs, of boxes, end the search.
fn lesseq() -> String {
    const NUMBERS: usize = 1019;
    let mut book = String::from("(link p)\n(link r)\n(type i)\n");
    (0..NUMBERS).for_each(|k| book += &format!("(number {} i 7)\n", name(k)));
    (NUMBERS..ALL).for_each(|k| book += &format!("(thing {})\n", name(k)));
    (0..NUMBERS).for_each(|k| book += &fact(NUMBERS, "p", k));
    for k in NUMBERS + 1..ALL {
        book += &fact(k, "p", NUMBERS);
        (0..480).for_each(|end| book += &fact(k, "r", end));
    }
    book + &shapes_and_rules(64, |_| "(lesseq (star p) r)".into())
}

/// 64 `onelang`: a ring of 992 boxes, one of which leads to words in 32 languages.
fn onelang() -> String {
    let mut book = String::from("(link p)\n");
    (0..32).for_each(|k| book += &format!("(lang {0})\n(words {0} {0})\n", name(k)));
    (32..ALL).for_each(|k| book += &format!("(thing {})\n", name(k)));
    book += &along("p", 32..ALL - 1);
    book += &fact(ALL - 1, "p", 32);
    (0..32).for_each(|k| book += &fact(500, "p", k));
    book + &shapes_and_rules(64, |_| "(onelang (star p))".into())
}

/// `all` along a `star` in `all`, thirty deep, twice.
fn all_in_all() -> String {
    let deep = |leaf: &str| format!("{}{leaf}{}", "(all (star p) ".repeat(30), ")".repeat(30));
    shapes_and_rules(2, |k| deep(["true", "(kind blank)"][k]))
}
