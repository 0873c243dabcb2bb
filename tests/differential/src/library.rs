//! The proved operations, as libmelivanoup.a exports them: each answers the refusal's number, 0 for none.

use reference::verdicts::Question;

pub struct Read {
    pub refusal: u32,
    pub line: usize,
    pub nodes: usize,
    pub facts: usize,
    pub rules: usize,
}

unsafe extern "C" {
    fn melivanoup_read(
        book: *const u8, book_len: usize, names: *mut u8, names_len: usize, cells: *mut u16, cells_len: usize, values: *mut i64,
        values_len: usize, line: *mut usize, nodes: *mut usize, facts: *mut usize, rules: *mut usize,
    ) -> u32;
    fn melivanoup_verdict(
        names: *const u8, names_len: usize, cells: *const u16, cells_len: usize, values: *const i64, values_len: usize,
        console: usize, node: usize, shape: usize, tallies: *mut u32, tallies_len: usize, conforms: *mut u32,
    ) -> u32;
    fn melivanoup_rounds(
        names: *const u8, names_len: usize, cells: *const u16, cells_len: usize, values: *const i64, values_len: usize,
        node: usize, path: usize, rounds: *mut usize,
    ) -> u32;
    fn melivanoup_nearest(
        names: *const u8, names_len: usize, cells: *const u16, cells_len: usize, values: *const i64, values_len: usize,
        node: usize, path: usize, shape: usize, found: *mut u32, hops: *mut usize, spare: *mut usize,
    ) -> u32;
    fn melivanoup_compile(
        names: *const u8, names_len: usize, cells: *const u16, cells_len: usize, values: *const i64, values_len: usize,
        plan: *mut u16, plan_len: usize, steps: *mut usize,
    ) -> u32;
    fn melivanoup_run(
        names: *const u8, names_len: usize, cells: *const u16, cells_len: usize, values: *const i64, values_len: usize,
        plan: *const u16, plan_len: usize, work: *mut u64, work_len: usize,
    ) -> u32;
    fn melivanoup_list(
        names: *const u8, names_len: usize, cells: *const u16, cells_len: usize, values: *const i64, values_len: usize,
        plan: *const u16, plan_len: usize, work: *const u64, work_len: usize, rule: usize, row: *mut u16, row_len: usize,
        nodes: *mut usize,
    ) -> u32;
    fn melivanoup_validate(
        book: *const u8, book_len: usize, names: *mut u8, names_len: usize, cells: *mut u16, cells_len: usize, values: *mut i64,
        values_len: usize, plan: *mut u16, plan_len: usize, work: *mut u64, work_len: usize, lists: *mut u16, lists_len: usize,
        lengths: *mut u16, lengths_len: usize, line: *mut usize, steps: *mut usize,
    ) -> u32;
    fn melivanoup_report(
        names: *const u8, names_len: usize, cells: *const u16, cells_len: usize, values: *const i64, values_len: usize,
        lists: *const u16, lists_len: usize, lengths: *const u16, lengths_len: usize, part: usize, page: *mut u8, page_len: usize,
        bytes: *mut usize,
    ) -> u32;
}

/// What the numbers behind the pointers are before a call: each must be written.
const BEFORE: usize = 0xdead_beef;

/// The three tables as they are lent for reading.
#[derive(Clone, Copy)]
pub struct Lent<'a> {
    pub names: &'a [u8],
    pub cells: &'a [u16],
    pub values: &'a [i64],
}

pub fn read(book: &[u8], names: &mut [u8], cells: &mut [u16], values: &mut [i64]) -> Read {
    let mut r = Read { refusal: 0, line: BEFORE, nodes: BEFORE, facts: BEFORE, rules: BEFORE };
    r.refusal = unsafe {
        melivanoup_read(
            book.as_ptr(), book.len(), names.as_mut_ptr(), names.len(), cells.as_mut_ptr(), cells.len(), values.as_mut_ptr(),
            values.len(), &mut r.line, &mut r.nodes, &mut r.facts, &mut r.rules,
        )
    };
    r
}

/// the refusal, and whether the node conforms
pub fn verdict(t: Lent, q: Question, tallies: &mut [u32]) -> (u32, u32) {
    let mut conforms = BEFORE as u32;
    let refusal = unsafe {
        melivanoup_verdict(
            t.names.as_ptr(), t.names.len(), t.cells.as_ptr(), t.cells.len(), t.values.as_ptr(), t.values.len(), q.console,
            q.node, q.shape, tallies.as_mut_ptr(), tallies.len(), &mut conforms,
        )
    };
    (refusal, conforms)
}

/// the refusal and the number of rounds
pub fn rounds(t: Lent, node: usize, path: usize) -> (u32, usize) {
    let mut rounds = BEFORE;
    let refusal = unsafe {
        melivanoup_rounds(
            t.names.as_ptr(), t.names.len(), t.cells.as_ptr(), t.cells.len(), t.values.as_ptr(), t.values.len(), node, path,
            &mut rounds,
        )
    };
    (refusal, rounds)
}

/// the refusal, whether there is a spare, its hops and its node
pub fn nearest(t: Lent, node: usize, path: usize, shape: usize) -> (u32, u32, usize, usize) {
    let (mut found, mut hops, mut spare) = (BEFORE as u32, BEFORE, BEFORE);
    let refusal = unsafe {
        melivanoup_nearest(
            t.names.as_ptr(), t.names.len(), t.cells.as_ptr(), t.cells.len(), t.values.as_ptr(), t.values.len(), node, path, shape,
            &mut found, &mut hops, &mut spare,
        )
    };
    (refusal, found, hops, spare)
}

/// the refusal and the number of steps
pub fn compile(t: Lent, plan: &mut [u16]) -> (u32, usize) {
    let mut steps = BEFORE;
    let refusal = unsafe {
        melivanoup_compile(
            t.names.as_ptr(), t.names.len(), t.cells.as_ptr(), t.cells.len(), t.values.as_ptr(), t.values.len(), plan.as_mut_ptr(),
            plan.len(), &mut steps,
        )
    };
    (refusal, steps)
}

pub fn run(t: Lent, plan: &[u16], work: &mut [u64]) -> u32 {
    unsafe {
        melivanoup_run(
            t.names.as_ptr(), t.names.len(), t.cells.as_ptr(), t.cells.len(), t.values.as_ptr(), t.values.len(), plan.as_ptr(),
            plan.len(), work.as_mut_ptr(), work.len(),
        )
    }
}

/// the refusal and the number of nodes listed
pub fn list(t: Lent, plan: &[u16], work: &[u64], rule: usize, row: &mut [u16]) -> (u32, usize) {
    let mut nodes = BEFORE;
    let refusal = unsafe {
        melivanoup_list(
            t.names.as_ptr(), t.names.len(), t.cells.as_ptr(), t.cells.len(), t.values.as_ptr(), t.values.len(), plan.as_ptr(),
            plan.len(), work.as_ptr(), work.len(), rule, row.as_mut_ptr(), row.len(), &mut nodes,
        )
    };
    (refusal, nodes)
}

/// The seven slices of a whole run.
#[derive(Clone, PartialEq)]
pub struct Room {
    pub names: Vec<u8>,
    pub cells: Vec<u16>,
    pub values: Vec<i64>,
    pub plan: Vec<u16>,
    pub work: Vec<u64>,
    pub lists: Vec<u16>,
    pub lengths: Vec<u16>,
}

/// the refusal, its line and the number of steps
pub fn validate(book: &[u8], room: &mut Room) -> (u32, usize, usize) {
    let (mut line, mut steps) = (BEFORE, BEFORE);
    let refusal = unsafe {
        melivanoup_validate(
            book.as_ptr(), book.len(), room.names.as_mut_ptr(), room.names.len(), room.cells.as_mut_ptr(), room.cells.len(),
            room.values.as_mut_ptr(), room.values.len(), room.plan.as_mut_ptr(), room.plan.len(), room.work.as_mut_ptr(),
            room.work.len(), room.lists.as_mut_ptr(), room.lists.len(), room.lengths.as_mut_ptr(), room.lengths.len(), &mut line,
            &mut steps,
        )
    };
    (refusal, line, steps)
}

/// the refusal and the number of bytes on the page
pub fn report(t: Lent, lists: &[u16], lengths: &[u16], part: usize, page: &mut [u8]) -> (u32, usize) {
    let mut bytes = BEFORE;
    let refusal = unsafe {
        melivanoup_report(
            t.names.as_ptr(), t.names.len(), t.cells.as_ptr(), t.cells.len(), t.values.as_ptr(), t.values.len(), lists.as_ptr(),
            lists.len(), lengths.as_ptr(), lengths.len(), part, page.as_mut_ptr(), page.len(), &mut bytes,
        )
    };
    (refusal, bytes)
}
