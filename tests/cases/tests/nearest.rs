//! The nearest spares in small tables, and around rings of many sizes. One line more than in the other texts:
//! `ask NODE PATH SHAPE N C V`, a question, with names, cells and values lent as `lend` says.

use cases::{Input, Line};

/// The spare, or that there is none, or the refusal.
fn told(input: &Input, node: usize, path: usize, shape: usize) -> String {
    match input.tables().nearest(node, path, shape) {
        Ok(Some(spare)) => format!("at {} {}", spare.hops, spare.node),
        Ok(None) => "no spare".into(),
        Err(why) => format!("refused {}", why.ground.number()),
    }
}

fn ask(input: &mut Input, line: &Line) -> String {
    input.more = [3, 4, 5, 6, 7].map(|k| line.number(k));
    // -1 is the greatest number there is
    let [node, path, shape] = [0, 1, 2].map(|k| line.number(k) as usize);
    format!("{}: {}\n", line.text, told(input, node, path, shape))
}

/// A ring of so many nodes by one link, and what is told from the last of them, along the link and either way, of three shapes:
/// the last but one; that or the first; none.
fn ring(nodes: usize) -> String {
    let mut input = Input::new();
    let before = (nodes + nodes - 2) % nodes;
    let lines = ["path 0 0 the link", "path 1 0 back", "path 3 0 1 either way", "entry 6 1 a blank node", "entry 1 0 the first"];
    input.store(&Line::new("cell 1 1 link"));
    lines.iter().for_each(|line| _ = input.add(&Line::new(line)));
    for line in [format!("entry 1 {before}"), "entry 4 1 2 either".into(), "shape 2".into(), "shape 3".into(), "shape 0".into()] {
        input.add(&Line::new(&line));
    }
    for v in 0..nodes {
        input.add(&Line::new("node 0"));
        input.add(&Line::new(&format!("fact {v} 0 {}", (v + 1) % nodes)));
    }
    let asked = [0, 2].into_iter().flat_map(|path| (0..3).map(move |shape| (path, shape)));
    let answers: Vec<String> = asked.map(|(path, shape)| told(&input, nodes - 1, path, shape)).collect();
    format!("of {nodes}: {}\n", answers.join(", "))
}

#[test]
fn spares_are_as_the_definitions_say() {
    let rings: String = [1, 2, 3, 63, 64, 65, 127, 128, 129, 1023, 1024].map(ring).concat();
    cases::compare_file("nearest", &(cases::asked(&cases::text("nearest.txt"), ask) + "- rings\n" + &rings));
}
