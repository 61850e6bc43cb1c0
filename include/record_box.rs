// The calls of include/record_box.h for Rust: the same names, the same fields. The header says what each call does
// and what it asks of its buffers.
//
// Take this file into your crate as a module, and say there that the static library is linked:
//
//     #[link(name = "exports", kind = "static")]
//     extern "C" {}

/// The version of the header that this file belongs to.
pub const VERSION: u32 = 3;

/// A record's size in bytes, the most records of a table, and what suffices to settle every table.
pub const RECORD_BYTES: usize = 138;
pub const MOST_RECORDS: usize = 4096;
pub const ENOUGH_CELLS: usize = 1366;
pub const ENOUGH_ORDER: usize = MOST_RECORDS;
pub const ENOUGH_TAKEN: usize = MOST_RECORDS;

/// `struct record_box_answer`: a refusal's number and position; 0 and 0 where nothing is refused.
#[repr(C)]
#[derive(Clone, Copy, Debug, PartialEq, Eq)]
pub struct Answer {
    pub number: u32,
    pub position: usize,
}

/// `struct record_box_part`: where a part of the lent table begins, and how many bytes it has.
#[repr(C)]
#[derive(Clone, Copy, Debug, PartialEq, Eq)]
pub struct Part {
    pub begin: usize,
    pub length: usize,
}

/// `struct record_box_settled`: the counts of a settled table, or a refusal with every count 0.
#[repr(C)]
#[derive(Clone, Copy, Debug, PartialEq, Eq)]
pub struct Settled {
    pub number: u32,
    pub position: usize,
    pub records: usize,
    pub highest: u32,
    pub undecided: u32,
    pub written: usize,
    pub equivocators: usize,
}

extern "C" {
    pub fn record_box_check(n: u8, table: *const u8, table_length: usize) -> Answer;

    pub fn record_box_lookup(
        n: u8,
        table: *const u8,
        table_length: usize,
        round: u32,
        author: u8,
        mark: u32,
    ) -> Part;

    pub fn record_box_lookup_answer(
        n: u8,
        table: *const u8,
        table_length: usize,
        round: u32,
        author: u8,
        mark: u32,
    ) -> Answer;

    pub fn record_box_settle(
        n: u8,
        table: *const u8,
        table_length: usize,
        cells: *mut u32,
        cells_length: usize,
        order: *mut u32,
        order_length: usize,
        taken: *mut u8,
        taken_length: usize,
    ) -> Settled;
}
