//! Tables made to be slow, of 1,024 nodes and up to 4,096 facts, and what the verdict says of one node of each; their plans are
//! run too. Then how far searches along such paths go, and the nearest spares along them; and what class rules select. All of it
//! with the stack that the wrapper says is enough.

use cases::{Input, Line};
use melivanoup::{Plan, Spare, Tallies, Work, STACK};
use std::time::{Duration, Instant};

/// A guard against what does not end, and no figure of speed: each takes well under a second.
const LIMIT: Duration = Duration::from_secs(5);

/// Makes a path or a shape, and gives its number.
type Make = fn(&mut Input) -> usize;

fn add(made: &mut Input, line: String) -> usize {
    made.add(&Line::new(&line))
}

/// 1,024 numbers; facts by two links, from and to node 0 and across.
fn dense() -> Input {
    let mut made = Input::new();
    ["cell 1 2 links", "cell 2 1 type"].iter().for_each(|line| made.store(&Line::new(line)));
    for v in 0..1024 {
        add(&mut made, "node 2".into());
        for (s, p, o) in [(v, 0, 0), (v, 1, 0), (0, 1, v), (v, 1, 1023 - v)] {
            add(&mut made, format!("fact {s} {p} {o}"));
        }
    }
    made
}

/// How many repeats `star_in_star` has, and how many facts the chain of each.
const LEVELS: usize = 42;
const RUN: usize = 24;

/// How many repeats such a nest has in a book that opens as many brackets as it may.
const BOOK_LEVELS: usize = 15;

/// A chain of things, the first facts by link 0, as many by link 1, and so on.
fn chain(links: usize, facts: usize) -> Input {
    let mut made = Input::new();
    made.store(&Line::new(&format!("cell 1 {links} links")));
    (0..1024).for_each(|_| _ = add(&mut made, "node 0".into()));
    (0..links * facts).for_each(|v| _ = add(&mut made, format!("fact {v} {} {}", v / facts, v + 1)));
    made
}

/// A chain for each level.
fn chains() -> Input {
    chain(LEVELS, RUN)
}

/// All nodes in one chain.
fn one_chain() -> Input {
    chain(1, 1023)
}

/// A ring of things by link 0; by link 1 node 7 leads to sixteen of them.
fn ring() -> Input {
    let mut made = Input::new();
    made.store(&Line::new("cell 1 2 links"));
    (0..1024).for_each(|_| _ = add(&mut made, "node 0".into()));
    (0..1024).for_each(|v| _ = add(&mut made, format!("fact {v} 0 {}", (v + 1) % 1024)));
    (0..16).for_each(|k| _ = add(&mut made, format!("fact 7 1 {}", 60 * k)));
    made
}

/// A path that is a link.
fn link(made: &mut Input, number: usize) -> usize {
    add(made, format!("path 0 {number}"))
}

/// A path of two links, by which each node leads to each.
fn everywhere(made: &mut Input) -> usize {
    let (to, from) = (link(made, 0), link(made, 1));
    add(made, format!("path 2 {to} {from}"))
}

/// A repeat by which each node leads to each.
fn star(made: &mut Input) -> usize {
    let first = link(made, 1);
    add(made, format!("path 4 {first}"))
}

fn form(made: &mut Input, code: usize, first: usize, second: usize) -> usize {
    add(made, format!("entry {code} {first} {second} 0 1024"))
}

fn shape(made: &mut Input, entry: usize) -> usize {
    add(made, format!("shape {entry}"))
}

/// `all` in `all`, 31 deep.
fn all_in_all(made: &mut Input, path: Make) -> usize {
    let mut f = form(made, 0, 0, 0);
    for _ in 0..31 {
        let path = path(made);
        f = form(made, 14, path, f);
    }
    shape(made, f)
}

/// `star` of itself and a link, one in the other, with the link of each level.
fn nest(made: &mut Input, levels: usize, number: fn(usize) -> usize) -> usize {
    let first = link(made, number(0));
    let mut path = add(made, format!("path 4 {first}"));
    for level in 1..levels {
        let next = link(made, number(level));
        let through = add(made, format!("path 2 {path} {next}"));
        path = add(made, format!("path 4 {through}"));
    }
    path
}

/// A nest with a link and a chain of its own for each level: a node leads to itself and to the last chain.
fn star_in_star(made: &mut Input) -> usize {
    let path = nest(made, LEVELS, |level| level);
    count(made, path, RUN + 1)
}

/// `plus` and `star` by turns, as many as there are path entries: a node leads to each.
fn star_of_star(made: &mut Input) -> usize {
    let mut path = star(made);
    (2..128).for_each(|k| path = add(made, format!("path {} {path}", 4 + k % 2)));
    count(made, path, 1024)
}

/// `seq` of two such repeats, and that twice again, as often as there is room for: a node leads to each.
fn star_then_star(made: &mut Input) -> usize {
    let mut paths: Vec<usize> = (0..32).map(|_| star(made)).collect();
    while let [first, second, ..] = paths[..] {
        paths.drain(..2);
        paths.push(add(made, format!("path 2 {first} {second}")));
    }
    count(made, paths[0], 1024)
}

/// `seq` in `seq`, as deep as there are path entries, over one link: a node leads to each.
fn seq_in_seq(made: &mut Input) -> usize {
    let first = link(made, 1);
    let mut path = first;
    (1..128).for_each(|_| path = add(made, format!("path 2 {path} {first}")));
    count(made, path, 1024)
}

/// Exactly so many ends.
fn count(made: &mut Input, path: usize, ends: usize) -> usize {
    let t = form(made, 0, 0, 0);
    let entry = add(made, format!("entry 13 {path} {t} {ends} {ends}"));
    shape(made, entry)
}

/// A chain of shapes, each using the one before twice, at every end of a path.
fn twice(made: &mut Input) -> usize {
    let t = form(made, 0, 0, 0);
    let mut s = shape(made, t);
    for _ in 0..21 {
        let [x, y] = [0, 1].map(|_| {
            let (path, child) = (everywhere(made), form(made, 2, s, 0));
            form(made, 14, path, child)
        });
        let both = form(made, 3, x, y);
        s = shape(made, both);
    }
    s
}

/// As many `all` as there are form entries, each along a link.
fn links(made: &mut Input) -> usize {
    let mut f = form(made, 0, 0, 0);
    for _ in 0..111 {
        let path = link(made, 1);
        f = form(made, 14, path, f);
    }
    shape(made, f)
}

/// A condition along such a path, as often as there is room for, at every node.
fn many(made: &mut Input, path: Make, code: usize, second: usize) -> usize {
    let all = path(made);
    let mut f = form(made, 0, 0, 0);
    for _ in 0..41 {
        let end = path(made);
        let condition = form(made, code, end, second);
        f = form(made, 3, f, condition);
    }
    let everywhere = form(made, 14, all, f);
    shape(made, everywhere)
}

/// `onelang` along repeats, as often as there is room for, at sixteen nodes.
fn at_sixteen(made: &mut Input) -> usize {
    let to = link(made, 1);
    let mut f = form(made, 0, 0, 0);
    for _ in 0..54 {
        let first = link(made, 0);
        let path = add(made, format!("path 4 {first}"));
        let condition = form(made, 20, path, 0);
        f = form(made, 3, f, condition);
    }
    let all = form(made, 14, to, f);
    shape(made, all)
}

/// What something gives; and where it took long, how long.
fn timed<T>(what: &str, run: impl FnOnce() -> T) -> (T, String) {
    let begun = Instant::now();
    let value = run();
    let late = if begun.elapsed() > LIMIT { format!(", {what} after {} s", begun.elapsed().as_secs()) } else { String::new() };
    (value, late)
}

/// What is said of node 7 and the last shape, and whether all is run.
fn ask(title: &str, mut made: Input, make: Make) -> String {
    let shape = make(&mut made);
    let (tables, mut plan, mut work) = (made.tables(), Plan::new(), Work::new());
    let (told, late) = timed("told", || tables.verdict(0, 7, shape, &mut Tallies::new()));
    let (ran, late_run) = timed("run", || tables.compile(&mut plan).and_then(|_| tables.run(&plan, &mut work)));
    match ran.and(told) {
        Ok(true) => format!("{title}: yes{late}{late_run}\n"),
        Ok(false) => format!("{title}: no{late}{late_run}\n"),
        Err(why) => format!("{title}: {why}\n"),
    }
}

/// The rounds of each path entry from node 0, or of the last entry alone.
fn search(title: &str, mut made: Input, make: Make, each: bool) -> String {
    make(&mut made);
    let tables = made.tables();
    let first = if each { 0 } else { tables.paths() - 1 };
    let mut written = format!("{title}:");
    for path in first..tables.paths() {
        let (told, late) = timed("told", || tables.rounds(0, path));
        written += &told.map_or_else(|why| format!(" {why}"), |rounds| format!(" {rounds}{late}"));
    }
    written + "\n"
}

/// Searches that take many rounds, or along paths with much in them.
fn searches() -> String {
    let far: [(&str, fn() -> Input, Make, bool); 6] = [
        ("rounds of a link along a chain", one_chain, |made| link(made, 0), true),
        ("rounds of a link around a ring", ring, |made| link(made, 0), true),
        ("rounds of stars in stars, along a chain", one_chain, |made| nest(made, BOOK_LEVELS, |_| 0), true),
        ("rounds of stars in stars, each with a chain of its own", chains, star_in_star, true),
        ("rounds of stars of stars", dense, star_of_star, false),
        ("rounds of seqs in seqs", dense, seq_in_seq, false),
    ];
    far.iter().map(|&(title, graph, make, each)| search(title, graph(), make, each)).collect()
}

/// A node, to be searched for along a path.
fn far(made: &mut Input, path: Make, node: usize) -> usize {
    path(made);
    let entry = form(made, 1, node, 0);
    shape(made, entry)
}

/// A blank node, of which there is none, to be searched for along a path.
fn none(made: &mut Input, path: Make) -> usize {
    path(made);
    let entry = form(made, 6, 1, 0);
    shape(made, entry)
}

/// What does not meet a shape.
fn broken(made: &mut Input, make: Make) -> usize {
    let met = make(made);
    let part = form(made, 2, met, 0);
    let entry = form(made, 5, part, 0);
    shape(made, entry)
}

fn one_link(made: &mut Input) -> usize {
    link(made, 0)
}

fn either_way(made: &mut Input) -> usize {
    let first = one_link(made);
    let back = add(made, format!("path 1 {first}"));
    add(made, format!("path 3 {first} {back}"))
}

/// A node from which a repeat of the link leads to all but one, to be searched for along the link: a ring has none.
fn all_but_one(made: &mut Input) -> usize {
    let first = one_link(made);
    let star = add(made, format!("path 4 {first}"));
    let shape = count(made, star, 1023);
    one_link(made);
    shape
}

/// From node 0 around a ring, along the last path entry.
const AROUND: [(&str, Make, Option<Spare>); 4] = [
    ("nearest around a ring, before the start", |made| far(made, one_link, 1023), Some(Spare { hops: 1023, node: 1023 })),
    ("nearest around a ring, either way", |made| far(made, either_way, 512), Some(Spare { hops: 512, node: 512 })),
    ("nearest around a ring, none", |made| none(made, one_link), None),
    ("nearest around a ring, none by its star", all_but_one, None),
];

/// The nearest spare from node 0, along the last path entry.
fn hunt(title: &str, mut made: Input, make: Make) -> String {
    let shape = make(&mut made);
    let tables = made.tables();
    let (told, late) = timed("told", || tables.nearest(0, tables.paths() - 1, shape));
    match told {
        Ok(Some(spare)) => format!("{title}: at {} {}{late}\n", spare.hops, spare.node),
        Ok(None) => format!("{title}: no spare{late}\n"),
        Err(why) => format!("{title}: {why}\n"),
    }
}

/// Spares that are far, or none; and shapes and paths with much in them.
fn hunts() -> String {
    let slow: [(&str, fn() -> Input, Make); 12] = [
        ("nearest along a chain", one_chain, |made| far(made, one_link, 1023)),
        ("nearest along stars in stars", one_chain, |made| far(made, |made| nest(made, BOOK_LEVELS, |_| 0), 1023)),
        ("nearest that breaks stars in stars, each with a chain of its own", chains, |made| broken(made, star_in_star)),
        ("nearest that breaks stars of stars", dense, |made| broken(made, star_of_star)),
        ("nearest that breaks stars after stars", dense, |made| broken(made, star_then_star)),
        ("nearest that breaks seqs in seqs", dense, |made| broken(made, seq_in_seq)),
        ("nearest that breaks all in all", dense, |made| broken(made, |made| all_in_all(made, everywhere))),
        ("nearest that breaks all in all along stars", dense, |made| broken(made, |made| all_in_all(made, star))),
        ("nearest that breaks shapes that use the one before twice", dense, |made| broken(made, twice)),
        ("nearest that meets equal at every node", dense, |made| many(made, everywhere, 15, 1)),
        ("nearest that breaks lesseq of a star at every node", dense, |made| broken(made, |made| many(made, star, 19, 1))),
        ("nearest that breaks onelang of a star at sixteen nodes", ring, |made| broken(made, at_sixteen)),
    ];
    let around = AROUND.iter().map(|&(title, make, _)| hunt(title, ring(), make));
    around.chain(slow.iter().map(|&(title, graph, make)| hunt(title, graph(), make))).collect()
}

/// How many classes there are, and the node that is an instance of the first.
const CLASSES: usize = 1000;
const INSTANCE: usize = CLASSES;

/// Things, and classes among them, of which the first of each pair is under the second, by link 1.
fn classes(pairs: impl Iterator<Item = (usize, usize)>) -> Input {
    let mut made = Input::new();
    ["cell 1 2 links", "name 1 1 under"].iter().for_each(|line| made.store(&Line::new(line)));
    (0..1024).for_each(|_| _ = add(&mut made, "node 0".into()));
    add(&mut made, format!("fact {INSTANCE} 0 0"));
    pairs.for_each(|(class, next)| _ = add(&mut made, format!("fact {class} 1 {next}")));
    made
}

/// Each class under the next.
fn class_chain() -> Input {
    classes((1..CLASSES).map(|k| (k - 1, k)))
}

/// The last under the first, too.
fn class_ring() -> Input {
    classes((0..CLASSES).map(|k| (k, (k + 1) % CLASSES)))
}

/// Each class under four others, in many loops.
fn class_loops() -> Input {
    classes((0..CLASSES).flat_map(|k| [1, 3, 211, 998].map(|far| (k, (k + far) % CLASSES))))
}

const KINDS: [(&str, fn() -> Input); 3] =
    [("a chain of classes", class_chain), ("a ring of classes", class_ring), ("loops of classes", class_loops)];

/// As many steps Typed as there may be, of classes far from the first, and how many of them have the instance alone.
fn typed(title: &str, mut made: Input) -> String {
    (0..512).for_each(|k| _ = add(&mut made, format!("step 24 {}", CLASSES - 1 - k)));
    let (tables, plan, mut work) = (made.tables(), made.plan(), Work::new());
    let (ran, late) = timed("run", || tables.run(&plan, &mut work));
    let mut alone = [0; 16];
    alone[INSTANCE / 64] = 1 << (INSTANCE % 64);
    let right = work.words.chunks(16).filter(|set| *set == alone).count();
    ran.map_or_else(|why| format!("512 steps, {title}: {why}\n"), |_| format!("512 steps, {title}: {right}{late}\n"))
}

/// The best of some calls, since other work may hold one up.
fn best(mut call: impl FnMut()) -> Duration {
    let took = (0..20).map(|_| {
        let begun = Instant::now();
        call();
        begun.elapsed()
    });
    took.min().unwrap()
}

/// The longest chain.
#[test]
fn a_chain_is_searched_in_ten_milliseconds() {
    let mut made = one_chain();
    let path = link(&mut made, 0);
    let tables = made.tables();
    let best = best(|| assert_eq!(tables.rounds(0, path), Ok(1023)));
    assert!(best < Duration::from_millis(10), "{best:?}");
}

/// The longest ring: a spare on its far side, and none.
#[test]
fn a_spare_is_found_in_twenty_milliseconds() {
    for (title, make, spare) in AROUND {
        let mut made = ring();
        let shape = make(&mut made);
        let tables = made.tables();
        let best = best(|| assert_eq!(tables.nearest(0, tables.paths() - 1, shape), Ok(spare), "{title}"));
        assert!(best < Duration::from_millis(20), "{title}: {best:?}");
    }
}

/// As many rules as there may be, on classes far from the first.
#[test]
fn class_rules_are_run_in_twenty_milliseconds() {
    for (title, classes) in KINDS {
        let mut made = classes();
        let met = form(&mut made, 0, 0, 0);
        let broken = form(&mut made, 5, met, 0);
        let nobody = shape(&mut made, broken);
        (0..32).for_each(|r| _ = add(&mut made, format!("rule {nobody} 3 {}", CLASSES - 1 - 16 * r)));
        let (tables, mut plan, mut work) = (made.tables(), Plan::new(), Work::new());
        tables.compile(&mut plan).unwrap();
        let best = best(|| tables.run(&plan, &mut work).unwrap());
        (0..32).for_each(|r| assert_eq!(tables.list(&plan, &work, r), Ok(vec![INSTANCE as u16]), "{title}, rule {r}"));
        assert!(best < Duration::from_millis(20), "{title}: {best:?}");
    }
}

#[test]
fn the_slowest_tables_are_answered_in_time() {
    let slow: [(&str, fn() -> Input, Make); 15] = [
        ("all in all", dense, |made| all_in_all(made, everywhere)),
        ("shapes that use the one before twice", dense, twice),
        ("all along links", dense, links),
        ("count at every node", dense, |made| many(made, everywhere, 13, 0)),
        ("equal at every node", dense, |made| many(made, everywhere, 15, 1)),
        ("lesseq at every node", dense, |made| many(made, everywhere, 19, 1)),
        ("onelang at every node", dense, |made| many(made, everywhere, 20, 0)),
        ("all in all along stars", dense, |made| all_in_all(made, star)),
        ("count of a star at every node", dense, |made| many(made, star, 13, 0)),
        ("lesseq of a star at every node", dense, |made| many(made, star, 19, 1)),
        ("stars in stars, each with a chain of its own", chains, star_in_star),
        ("stars of stars", dense, star_of_star),
        ("stars after stars", dense, star_then_star),
        ("seqs in seqs", dense, seq_in_seq),
        ("onelang of a star at sixteen nodes", ring, at_sixteen),
    ];
    let asks = move || slow.iter().map(|&(title, graph, make)| ask(title, graph(), make)).collect::<String>();
    let kinds = || KINDS.iter().map(|(title, classes)| typed(title, classes())).collect::<String>();
    let all = move || asks() + &searches() + &hunts() + &kinds();
    // the code here takes a little of the stack too
    let run = std::thread::Builder::new().stack_size(STACK + (256 << 10)).spawn(all).expect("a thread");
    cases::compare_file("speed", &run.join().expect("an end"));
}
