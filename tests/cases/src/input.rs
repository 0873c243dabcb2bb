//! Tables and plans from the lines of a text.

use melivanoup::{sizes, Plan, Tables};

/// The offset of a column, by its name in docs/LAYOUT.md.
pub fn column(name: &str) -> usize {
    let row = format!("| `{name}` | ");
    let found = include_str!("../../../docs/LAYOUT.md").lines().find_map(|line| line.strip_prefix(&row));
    let rest = found.unwrap_or_else(|| panic!("docs/LAYOUT.md has no column {name}"));
    rest.split(' ').next().and_then(|offset| offset.parse().ok()).expect("an offset")
}

/// A line: a word, numbers, and what they are.
pub struct Line<'a> {
    pub text: &'a str,
    pub word: &'a str,
    numbers: Vec<i64>,
}

impl Line<'_> {
    pub fn new(text: &str) -> Line<'_> {
        let mut words = text.split(' ');
        let word = words.next().unwrap_or("");
        Line { text, word, numbers: words.map_while(|word| word.parse().ok()).collect() }
    }

    /// The number at a place of the line, 0 where there is none.
    pub fn number(&self, k: usize) -> i64 {
        self.numbers.get(k).copied().unwrap_or(0)
    }

    fn cell(&self, k: usize) -> u16 {
        self.number(k).try_into().unwrap_or_else(|_| panic!("no cell holds this: {}", self.text))
    }
}

/// A title and the lines under it.
pub struct Case<'a> {
    pub title: &'a str,
    pub lines: Vec<Line<'a>>,
}

/// What stands above the first title, and the cases.
pub fn cases(text: &str) -> (Input, Vec<Case<'_>>) {
    let (mut common, mut cases) = (Input::new(), Vec::<Case>::new());
    for line in text.lines() {
        match (line.strip_prefix("- "), cases.last_mut()) {
            (Some(title), _) => cases.push(Case { title, lines: Vec::new() }),
            (None, Some(case)) => case.lines.push(Line::new(line)),
            (None, None) => common.store(&Line::new(line)),
        }
    }
    (common, cases)
}

/// Each title of a text, and what is told at its lines `ask`; the other lines store.
pub fn asked(text: &str, ask: impl Fn(&mut Input, &Line) -> String) -> String {
    let (empty, parts) = cases(text);
    let mut written = String::new();
    for part in parts {
        written += &format!("- {}\n", part.title);
        let mut input = empty.clone();
        for line in &part.lines {
            match line.word {
                "ask" => written += &ask(&mut input, line),
                _ => input.store(line),
            }
        }
    }
    written
}

/// Tables and a plan, both with places past what they must have, which are not zero; and how much of them is lent.
#[derive(Clone)]
pub struct Input {
    tables: Tables,
    plan: Plan,
    /// how many places more than they must have names, cells, values, plan and work space have
    pub more: [i64; 5],
}

/// So many places more, or less.
pub fn places(needed: usize, more: i64) -> usize {
    (needed as i64 + more) as usize
}

fn longer<T: Copy>(mut table: Vec<T>, past: T) -> Vec<T> {
    table.extend([past; 8]);
    table
}

fn part<T: Copy>(table: &[T], needed: usize, more: i64) -> Vec<T> {
    table[..places(needed, more)].to_vec()
}

impl Input {
    /// Empty tables and a plan without steps.
    pub fn new() -> Input {
        let Tables { cells, values, .. } = Tables::new();
        // no zero ends a name here, so that none of them is `under`
        let tables = Tables { names: vec![7; sizes::NAMES + 8], cells: longer(cells, 7), values: longer(values, 7) };
        Input { tables, plan: Plan { cells: longer(Plan::new().cells, 7) }, more: [0; 5] }
    }

    /// Does what a line says.
    pub fn store(&mut self, line: &Line) {
        match line.word {
            "cell" => self.tables.cells[line.cell(0) as usize] = line.cell(1),
            "plan" => self.plan.cells[line.cell(0) as usize] = line.cell(1),
            "name" => self.name(line),
            "lend" => self.more = [0, 1, 2, 3, 4].map(|k| line.number(k)),
            _ => _ = self.add(line),
        }
    }

    /// Puts the bytes of a name, a dot for each zero, and zeros behind them.
    fn name(&mut self, line: &Line) {
        let [pool, k] = [line.cell(0), line.cell(1)].map(usize::from);
        let first = if pool == 0 { 0 } else { column(["LINK_NAMES", "TYPE_NAMES", "LANG_NAMES", "SHAPE_NAMES"][pool - 1]) };
        let bytes = line.text.split(' ').nth(3).expect("a name").bytes().map(|byte| if byte == b'.' { 0 } else { byte });
        let place = self.tables.names[first + 32 * k..][..32].iter_mut();
        place.zip(bytes.chain(std::iter::repeat(0))).for_each(|(old, new)| *old = new);
    }

    /// Adds the row of a line, and gives its number.
    pub fn add(&mut self, line: &Line) -> usize {
        // where the count stands, and the columns
        let (count, columns): (usize, &[&str]) = match line.word {
            "node" => (0, &["NODE_KINDS", "NODE_TYPES", "NODE_LANGS"]),
            "shape" => (4, &["ROOTS"]),
            "fact" => (5, &["SUBJECTS", "PREDICATES", "OBJECTS"]),
            "path" => (6, &["PATH_CODES", "PATH_FIRSTS", "PATH_SECONDS"]),
            "entry" => (7, &["FORM_CODES", "FORM_FIRSTS", "FORM_SECONDS", "FORM_THIRDS", "FORM_FOURTHS"]),
            "item" => (8, &["ITEMS"]),
            "rule" => (9, &["RULE_SHAPES", "RULE_TARGETS", "RULE_OPERANDS"]),
            "step" => (0, &["STEP_CODES", "STEP_FIRSTS", "STEP_SECONDS", "STEP_THIRDS", "STEP_FOURTHS"]),
            _ => panic!("an unknown line: {}", line.text),
        };
        let cells = if line.word == "step" { &mut self.plan.cells } else { &mut self.tables.cells };
        let k = cells[count] as usize;
        cells[count] += 1;
        columns.iter().enumerate().for_each(|(j, name)| cells[column(name) + k] = line.cell(j));
        match line.word {
            "node" => self.tables.values[k] = line.number(3),
            "entry" => self.tables.values[column("FORM_VALUES") + k] = line.number(5),
            _ => {}
        }
        k
    }

    /// The tables as they are lent.
    pub fn tables(&self) -> Tables {
        let (lent, [names, cells, values, ..]) = (&self.tables, self.more);
        Tables {
            names: part(&lent.names, sizes::NAMES, names),
            cells: part(&lent.cells, sizes::CELLS, cells),
            values: part(&lent.values, sizes::VALUES, values),
        }
    }

    /// The plan as it is lent.
    pub fn plan(&self) -> Plan {
        Plan { cells: part(&self.plan.cells, sizes::PLAN, self.more[3]) }
    }
}

impl Default for Input {
    fn default() -> Input {
        Input::new()
    }
}
