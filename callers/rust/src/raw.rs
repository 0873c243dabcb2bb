//! The exported functions, as they are. A slice is a pointer and a length in elements; see callers/c/melivanoup.h for each promise.

unsafe extern "C" {
    pub fn melivanoup_read(
        book: *const u8, book_len: usize, names: *mut u8, names_len: usize, cells: *mut u16, cells_len: usize,
        values: *mut i64, values_len: usize, line: *mut usize, nodes: *mut usize, facts: *mut usize, rules: *mut usize,
    ) -> u32;
    pub fn melivanoup_verdict(
        names: *const u8, names_len: usize, cells: *const u16, cells_len: usize, values: *const i64, values_len: usize,
        console: usize, node: usize, shape: usize, tallies: *mut u32, tallies_len: usize, conforms: *mut u32,
    ) -> u32;
    pub fn melivanoup_rounds(
        names: *const u8, names_len: usize, cells: *const u16, cells_len: usize, values: *const i64, values_len: usize,
        node: usize, path: usize, rounds: *mut usize,
    ) -> u32;
    pub fn melivanoup_nearest(
        names: *const u8, names_len: usize, cells: *const u16, cells_len: usize, values: *const i64, values_len: usize,
        node: usize, path: usize, shape: usize, found: *mut u32, hops: *mut usize, spare: *mut usize,
    ) -> u32;
    pub fn melivanoup_compile(
        names: *const u8, names_len: usize, cells: *const u16, cells_len: usize, values: *const i64, values_len: usize,
        plan: *mut u16, plan_len: usize, steps: *mut usize,
    ) -> u32;
    pub fn melivanoup_run(
        names: *const u8, names_len: usize, cells: *const u16, cells_len: usize, values: *const i64, values_len: usize,
        plan: *const u16, plan_len: usize, work: *mut u64, work_len: usize,
    ) -> u32;
    pub fn melivanoup_list(
        names: *const u8, names_len: usize, cells: *const u16, cells_len: usize, values: *const i64, values_len: usize,
        plan: *const u16, plan_len: usize, work: *const u64, work_len: usize, rule: usize, row: *mut u16, row_len: usize,
        nodes: *mut usize,
    ) -> u32;
    pub fn melivanoup_validate(
        book: *const u8, book_len: usize, names: *mut u8, names_len: usize, cells: *mut u16, cells_len: usize,
        values: *mut i64, values_len: usize, plan: *mut u16, plan_len: usize, work: *mut u64, work_len: usize,
        lists: *mut u16, lists_len: usize, lengths: *mut u16, lengths_len: usize, line: *mut usize, steps: *mut usize,
    ) -> u32;
    pub fn melivanoup_report(
        names: *const u8, names_len: usize, cells: *const u16, cells_len: usize, values: *const i64, values_len: usize,
        lists: *const u16, lists_len: usize, lengths: *const u16, lengths_len: usize, part: usize, page: *mut u8,
        page_len: usize, bytes: *mut usize,
    ) -> u32;
}
