//! The example books against their reports, the single operations against the whole run, and the refusals.

use melivanoup::{sizes, Ground, Plan, Refusal, Tables, Tallies, Validator, Work};
use std::path::PathBuf;

const B: &[u8] = include_bytes!("../../../examples/book-b.book");
const SPLITTERS: &[u8] = include_bytes!("../../../examples/splitters.book");
const SPARES: &[u8] = include_bytes!("../../../examples/spares.book");
const KINDS: &[u8] = include_bytes!("../../../examples/kinds.book");

/// every example: its name, its bytes, its report
fn examples() -> Vec<(String, Vec<u8>, String)> {
    let folder = PathBuf::from(env!("CARGO_MANIFEST_DIR")).join("../../examples");
    let files = std::fs::read_dir(folder).unwrap().map(|entry| entry.unwrap().path());
    let books: Vec<_> = files
        .filter(|file| file.extension().is_some_and(|e| e == "book"))
        .map(|file| {
            let report = std::fs::read_to_string(file.with_extension("out")).unwrap();
            (file.display().to_string(), std::fs::read(&file).unwrap(), report)
        })
        .collect();
    assert!(books.len() >= 5);
    books
}

fn refused(ground: Ground, line: usize) -> Refusal {
    Refusal { ground, line }
}

#[test]
fn examples_print_their_reports() {
    let mut validator = Validator::new();
    for (file, book, report) in examples() {
        assert_eq!(validator.validate(&book).unwrap().to_string(), report, "{file}");
    }
}

#[test]
fn a_report_has_what_it_prints() {
    let mut validator = Validator::new();
    for (file, book, _) in examples() {
        let report = validator.validate(&book).unwrap();
        let mut text = format!("(book {} {} {})\n", report.nodes(), report.facts(), report.rules().len());
        for (r, rule) in report.rules().iter().enumerate() {
            rule.breaks.iter().for_each(|name| text += &format!("(breaks {r} {name})\n"));
        }
        text += &format!("(found {})\n", report.found());
        assert_eq!(text, report.to_string(), "{file}");
    }
}

#[test]
fn the_single_operations_give_the_same_lists() {
    let (mut tables, mut plan, mut work) = (Tables::new(), Plan::new(), Work::new());
    for (file, book, _) in examples() {
        let report = Validator::new().validate(&book).unwrap();
        let counts = tables.read(&book).unwrap();
        assert_eq!(counts, tables.counts());
        let steps = tables.compile(&mut plan).unwrap();
        assert_eq!(steps, plan.steps());
        tables.run(&plan, &mut work).unwrap();
        for (r, rule) in report.rules().iter().enumerate() {
            let list = tables.list(&plan, &work, r).unwrap();
            let names: Vec<_> = list.iter().map(|&v| tables.node_name(v.into()).unwrap()).collect();
            assert_eq!(names, rule.breaks, "{file}, rule {r}");
            let shape = tables.rule_shape(r).unwrap();
            assert_eq!(tables.shape_name(shape), Some(&rule.shape[..]));
            let mut tallies = Tallies::new();
            assert!(list.iter().all(|&v| !tables.verdict(r % 8, v.into(), shape, &mut tallies).unwrap()));
            let counts = [0, 1, 2, 3, 4, 5, 6, 7].map(|c| if c == r % 8 { list.len() as u32 } else { 0 });
            assert_eq!(tallies.counts, counts);
        }
    }
}

#[test]
fn verdicts_on_book_b() {
    let mut tables = Tables::new();
    tables.read(B).unwrap();
    let level = tables.shape("level").unwrap();
    let mut tallies = Tallies { counts: [0, 0, 0, 0, 0, 0, 0, u32::MAX - 1] };
    let mut verdict = |name| tables.verdict(7, tables.node(name).unwrap(), level, &mut tallies);
    assert_eq!([verdict("left"), verdict("right"), verdict("h240")], [Ok(false), Ok(false), Ok(true)]);
    assert_eq!(tallies.counts, [0, 0, 0, 0, 0, 0, 0, u32::MAX], "a tally stays at its greatest value");
    assert_eq!(tables.verdict(0, 4, level, &mut tallies), Err(refused(Ground::Absent, 0)));
    assert_eq!(tables.verdict(8, 0, 1, &mut tallies), Err(refused(Ground::Absent, 0)), "10 comes before 11");
    assert_eq!(tables.verdict(8, 0, level, &mut tallies), Err(refused(Ground::Console, 0)));
    assert_eq!(tallies.counts, [0, 0, 0, 0, 0, 0, 0, u32::MAX], "a refusal moves no tally");
}

#[test]
fn rounds_among_the_splitters() {
    let mut tables = Tables::new();
    let counts = tables.read(SPLITTERS).unwrap();
    let before = tables.clone();
    let rounds = |name, path| tables.rounds(tables.node(name).unwrap(), path);
    // path entries 0 to 2 are feeds, (inv feeds), (plus (inv feeds)), and so are 3 to 5; 6 and 7 are feeds, (star feeds)
    assert_eq!([rounds("desk", 0), rounds("split-3", 3), rounds("lamp-4", 6)], [Ok(4), Ok(2), Ok(0)]);
    assert_eq!([rounds("lamp-3", 1), rounds("desk", 4)], [Ok(4), Ok(0)]);
    assert_eq!([rounds("lamp-3", 2), rounds("desk", 5), rounds("desk", 7)], [Ok(1), Ok(0), Ok(1)]);
    assert_eq!(tables.paths(), 8);
    for (node, path) in [(counts.nodes, 0), (0, 8), (counts.nodes, 8), (usize::MAX, 0), (0, usize::MAX)] {
        assert_eq!(tables.rounds(node, path), Err(refused(Ground::Absent, 0)), "node {node}, path entry {path}");
    }
    assert_eq!(tables, before);
}

#[test]
fn the_nearest_spare_of_a_dead_lamp() {
    let mut tables = Tables::new();
    let counts = tables.read(SPARES).unwrap();
    let before = tables.clone();
    let [spare, covered] = ["spare", "covered"].map(|name| tables.shape(name).unwrap());
    let nearest = |name, path| {
        let told = tables.nearest(tables.node(name).unwrap(), path, spare).unwrap();
        told.map(|spare| (spare.hops, tables.node_name(spare.node).unwrap()))
    };
    // path entries 0 and 1 are state, lights; 2 to 6 are next, next, (inv next), (alt next (inv next)) and the star of that
    assert_eq!(nearest("lamp-4", 5), Some((2, "lamp-6")), "lamp-5 is nearer and dead, lamp-1 is farther off");
    assert_eq!([nearest("lamp-4", 3), nearest("lamp-4", 4)], [Some((2, "lamp-6")), Some((3, "lamp-1"))]);
    assert_eq!([nearest("lamp-2", 2), nearest("lamp-2", 5)], [Some((4, "lamp-6")), Some((1, "lamp-1"))]);
    assert_eq!([nearest("lamp-1", 5), nearest("lamp-7", 2), nearest("lamp-8", 5)], [Some((0, "lamp-1")), None, None]);
    assert_eq!(nearest("lamp-4", 6), Some((1, "lamp-1")), "its star once leads to every lamp of the run");
    for node in 0..counts.nodes {
        let found = tables.nearest(node, 5, spare).unwrap().is_some();
        let told = tables.verdict(0, node, covered, &mut Tallies::new());
        assert_eq!(told, Ok(found), "node {node}: there is a spare where its star has one");
    }
    let (nodes, most) = (counts.nodes, usize::MAX);
    for (node, path, shape) in [(nodes, 0, 0), (0, 7, 0), (0, 0, 3), (nodes, 7, 3), (most, 0, 0), (0, most, 0), (0, 0, most)] {
        let told = tables.nearest(node, path, shape);
        assert_eq!(told, Err(refused(Ground::Absent, 0)), "node {node}, path entry {path}, shape {shape}");
    }
    assert_eq!(tables, before);
}

/// The names of the nodes that each rule lists.
fn lists(tables: &Tables) -> Vec<Vec<&str>> {
    let (mut plan, mut work) = (Plan::new(), Work::new());
    tables.compile(&mut plan).unwrap();
    tables.run(&plan, &mut work).unwrap();
    let names = |list: Vec<u16>| list.iter().map(|&v| tables.node_name(v.into()).unwrap()).collect();
    (0..tables.counts().rules).map(|r| names(tables.list(&plan, &work, r).unwrap())).collect()
}

#[test]
fn a_rule_on_projectors_reaches_lasers() {
    // where the name of link 1 stands; docs/LAYOUT.md has where those of the links begin
    const UNDER: usize = 32_768 + 32;
    let mut tables = Tables::new();
    tables.read(KINDS).unwrap();
    assert_eq!(tables.names[UNDER..UNDER + 6], *b"under\0");
    assert_eq!(lists(&tables), [["rear"], ["right"], ["dome"]]);
    tables.names[UNDER + 6] = b'x';
    assert_eq!(lists(&tables), [["rear"], ["right"], ["dome"]], "a name ends at its first zero");
    tables.names[UNDER + 5] = b'x';
    assert_eq!(lists(&tables), [vec![], vec!["right"], vec![]], "without the link, by `a` alone");
}

#[test]
fn each_refusal_of_a_book_has_its_ground_and_line() {
    let deep = format!("(shape s {}true{})\n", "(not ".repeat(32), ")".repeat(32));
    let full: String = (0..1025).map(|k| format!("(thing n{k})\n")).collect();
    let books: [(&[u8], Ground, usize); 7] = [
        (&[b'('; sizes::BOOK + 1], Ground::TooLong, 0),
        (b"(thing a)\n(thing A)\n", Ground::Grammar, 2),
        (b"(type mm)\n(number h mm 9223372036854775808)\n", Ground::Range, 2),
        (deep.as_bytes(), Ground::Nesting, 1),
        (b"(link p)\n(thing a)\n(fact a p b)\n", Ground::Undefined, 3),
        (b"(link a)\n", Ground::Taken, 1),
        (full.as_bytes(), Ground::Limit, 1025),
    ];
    let mut validator = Validator::new();
    for (k, (book, ground, line)) in books.into_iter().enumerate() {
        validator.validate(B).unwrap();
        assert_eq!(validator.validate(book), Err(refused(ground, line)));
        assert_eq!(validator.tables(), &Tables::new(), "the tables of a refused book are zeros");
        assert_eq!(ground.number() as usize, k + 1);
        assert!(refused(ground, line).to_string().ends_with(&format!("{ground} (refusal {})", k + 1)));
    }
}

#[test]
fn short_buffers_and_strange_tables_are_refused() {
    let short = Err(refused(Ground::Short, 0));
    let strange = Err(refused(Ground::Malformed, 0));
    let empty = Tables { names: vec![], cells: vec![], values: vec![] };
    assert_eq!(empty.clone().read(B).map(|_| ()), short);
    assert_eq!(empty.verdict(0, 0, 0, &mut Tallies::new()).map(|_| ()), short);
    assert_eq!(empty.rounds(0, 0).map(|_| ()), short);
    assert_eq!(empty.nearest(0, 0, 0).map(|_| ()), short);
    let mut tables = Tables::new();
    tables.read(B).unwrap();
    assert_eq!(tables.compile(&mut Plan { cells: vec![] }).map(|_| ()), short);
    let (mut plan, mut work) = (Plan::new(), Work::new());
    tables.compile(&mut plan).unwrap();
    assert_eq!(tables.run(&plan, &mut Work { words: vec![] }), short);
    plan.cells[1] = 512;
    assert_eq!(tables.run(&plan, &mut work), strange);
    assert_eq!(work, Work::new(), "a refusal changes nothing");
    tables.cells[0] = 1025;
    assert_eq!(tables.compile(&mut plan).map(|_| ()), strange);
    assert_eq!(tables.rounds(0, 9).map(|_| ()), strange, "9 comes before 10");
    assert_eq!(tables.nearest(0, 0, 9).map(|_| ()), strange, "9 comes before 10");
    tables.cells[0] = 4;
    tables.compile(&mut plan).unwrap();
    tables.run(&plan, &mut work).unwrap();
    assert_eq!(tables.list(&plan, &work, 0), Ok(vec![0]));
    assert_eq!(tables.list(&plan, &work, 1), Err(refused(Ground::Absent, 0)));
}

#[test]
fn what_buffers_held_and_what_lies_past_them_plays_no_part() {
    let mut tables = Tables { names: vec![7; 50_000], cells: vec![7; 20_000], values: vec![-7; 2_000] };
    let mut clean = Tables::new();
    assert_eq!(tables.read(B), clean.read(B));
    assert_eq!(tables.names[..sizes::NAMES], clean.names);
    assert_eq!(tables.cells[..sizes::CELLS], clean.cells);
    assert_eq!(tables.values[..sizes::VALUES], clean.values);
    assert!(tables.names[sizes::NAMES..].iter().all(|&x| x == 7));
    assert!(tables.cells[sizes::CELLS..].iter().all(|&x| x == 7));
    assert!(tables.values[sizes::VALUES..].iter().all(|&x| x == -7));
}
