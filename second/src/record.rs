//! Document 01, "The record".

pub const RECORD_BYTES: usize = 138;
pub const MOST_RECORDS: usize = 4096;
/// Entries for references in every record, whatever n is.
pub const ENTRIES: usize = 31;
/// The sum covers bytes 0 to 135.
pub const SUMMED_BYTES: usize = 136;

const ROUND_AT: usize = 0;
const MARK_AT: usize = 4;
const REFS_AT: usize = 8;
const BATCHES_AT: usize = 132;
const AUTHOR_AT: usize = 134;
const PADDING_AT: usize = 135;
const SUM_AT: usize = 136;

/// A vertex's name. The order of the fields is the order of names in a table.
#[derive(Clone, Copy, Debug, PartialEq, Eq, PartialOrd, Ord)]
pub struct Name {
    pub round: u32,
    pub author: u8,
    pub mark: u32,
}

pub fn name(round: u32, author: u8, mark: u32) -> Name {
    Name {
        round,
        author,
        mark,
    }
}

/// One record, decoded. Nothing is checked here.
#[derive(Clone, Debug, PartialEq, Eq)]
pub struct Vertex {
    pub round: u32,
    pub mark: u32,
    pub refs: [u32; ENTRIES],
    pub batches: u16,
    pub author: u8,
    pub padding: u8,
    pub sum: u16,
}

impl Vertex {
    pub fn name(&self) -> Name {
        name(self.round, self.author, self.mark)
    }

    /// The names that it references, by author. It has a round before.
    pub fn referenced(&self) -> impl Iterator<Item = Name> + '_ {
        let entries = (0u8..).zip(self.refs).filter(|&(_, mark)| mark != 0);
        entries.map(|(author, mark)| name(self.round - 1, author, mark))
    }

    /// How many entries are references.
    pub fn references(&self) -> usize {
        self.refs.iter().filter(|&&mark| mark != 0).count()
    }
}

fn u16_at(bytes: &[u8], at: usize) -> u16 {
    u16::from_le_bytes([bytes[at], bytes[at + 1]])
}

fn u32_at(bytes: &[u8], at: usize) -> u32 {
    u32::from_le_bytes([bytes[at], bytes[at + 1], bytes[at + 2], bytes[at + 3]])
}

/// Takes a record of 138 bytes apart.
pub fn decode(record: &[u8]) -> Vertex {
    let mut refs = [0; ENTRIES];
    for (author, entry) in refs.iter_mut().enumerate() {
        *entry = u32_at(record, REFS_AT + 4 * author);
    }
    Vertex {
        round: u32_at(record, ROUND_AT),
        mark: u32_at(record, MARK_AT),
        refs,
        batches: u16_at(record, BATCHES_AT),
        author: record[AUTHOR_AT],
        padding: record[PADDING_AT],
        sum: u16_at(record, SUM_AT),
    }
}

/// Puts a vertex together as it stands, its sum field too.
pub fn encode(vertex: &Vertex) -> [u8; RECORD_BYTES] {
    let mut record = [0; RECORD_BYTES];
    record[ROUND_AT..ROUND_AT + 4].copy_from_slice(&vertex.round.to_le_bytes());
    record[MARK_AT..MARK_AT + 4].copy_from_slice(&vertex.mark.to_le_bytes());
    for (author, entry) in vertex.refs.iter().enumerate() {
        let at = REFS_AT + 4 * author;
        record[at..at + 4].copy_from_slice(&entry.to_le_bytes());
    }
    record[BATCHES_AT..BATCHES_AT + 2].copy_from_slice(&vertex.batches.to_le_bytes());
    record[AUTHOR_AT] = vertex.author;
    record[PADDING_AT] = vertex.padding;
    record[SUM_AT..].copy_from_slice(&vertex.sum.to_le_bytes());
    record
}

/// The sum that a record ought to have. It is taken as a whole number and reduced
/// at the end, which is the same as dropping every carry out of the top.
pub fn sum_of(record: &[u8]) -> u16 {
    let whole: u64 = (0..SUMMED_BYTES)
        .step_by(2)
        .map(|at| u64::from(u16_at(record, at)))
        .sum();
    u16::try_from(whole % 65_536).expect("a remainder by 65,536 is below it")
}

/// Gives a record the right sum.
pub fn mend(record: &mut [u8; RECORD_BYTES]) {
    let sum = sum_of(record);
    record[SUM_AT..].copy_from_slice(&sum.to_le_bytes());
}

/// A vertex as a record with the right sum, whatever its sum field says.
pub fn encode_mended(vertex: &Vertex) -> [u8; RECORD_BYTES] {
    let mut record = encode(vertex);
    mend(&mut record);
    record
}
