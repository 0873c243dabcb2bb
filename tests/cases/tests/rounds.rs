//! How far searches along paths go in small tables, and in rings of many sizes. One line more than in the other texts:
//! `ask NODE PATH N C V`, a question, with names, cells and values lent as `lend` says.

use cases::{Input, Line};

/// The rounds, or the refusal.
fn told(input: &Input, node: usize, path: usize) -> String {
    match input.tables().rounds(node, path) {
        Ok(rounds) => rounds.to_string(),
        Err(why) => format!("refused {}", why.ground.number()),
    }
}

fn ask(input: &mut Input, line: &Line) -> String {
    input.more = [2, 3, 4, 5, 6].map(|k| line.number(k));
    // -1 is the greatest number there is
    let [node, path] = [0, 1].map(|k| line.number(k) as usize);
    format!("{}: {}\n", line.text, told(input, node, path))
}

/// A ring of so many nodes by one link, and what is told of the link from the last of them.
fn ring(nodes: usize) -> String {
    let mut input = Input::new();
    input.store(&Line::new("cell 1 1 link"));
    input.add(&Line::new("path 0 0"));
    for v in 0..nodes {
        input.add(&Line::new("node 0"));
        input.add(&Line::new(&format!("fact {v} 0 {}", (v + 1) % nodes)));
    }
    format!("of {nodes}: {}\n", told(&input, nodes - 1, 0))
}

#[test]
fn rounds_are_as_the_definitions_say() {
    let rings: String = [1, 2, 3, 63, 64, 65, 127, 128, 129, 1023, 1024].map(ring).concat();
    cases::compare_file("rounds", &(cases::asked(&cases::text("rounds.txt"), ask) + "- rings\n" + &rings));
}
