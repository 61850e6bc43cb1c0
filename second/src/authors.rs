//! Document 01, "Authors and quorum".

/// The ten author counts, 3f+1 with f from 1 to 10.
pub const AUTHOR_COUNTS: [u8; 10] = [4, 7, 10, 13, 16, 19, 22, 25, 28, 31];

pub fn is_author_count(n: u8) -> bool {
    AUTHOR_COUNTS.contains(&n)
}

/// The f of n = 3f+1.
pub fn f_of(n: u8) -> usize {
    (usize::from(n) - 1) / 3
}

/// 2f+1.
pub fn quorum(n: u8) -> usize {
    2 * f_of(n) + 1
}

/// The leader of a round; rounds start at 1.
pub fn leader(n: u8, round: u32) -> u8 {
    let author = (round - 1) % u32::from(n);
    u8::try_from(author).expect("a remainder by n is below n")
}
