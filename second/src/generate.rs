//! Random inputs by kind and seed.

use crate::authors::{f_of, leader, AUTHOR_COUNTS};
use crate::check::{check, MOST_ROUNDS};
use crate::damage::{put, Fault, Record};
use crate::grow::{grow, one_certificate, view, Crowd, Marks, Plan};
use crate::program::{PROGRAM_BYTES, PROGRAM_RECORDS};
use crate::record::{decode, encode_mended, name, Name, Vertex, MOST_RECORDS, RECORD_BYTES};
use crate::rng::Rng;
use crate::settle::Lent;

/// What an input is made for.
#[derive(Clone, Copy, Debug, PartialEq, Eq)]
pub enum Kind {
    /// Every author in every round, referencing all.
    Full,
    /// What one box has seen of a table.
    PartialView,
    /// References leave some authors out.
    LeftOut,
    /// 2f+1 authors in a round and 2f+1 references, no more.
    Thin,
    /// Most leaders have few references to them or none.
    BlankLeaders,
    /// Leaders have references from about half.
    HalfLeaders,
    /// Leaders have support, and few certify it.
    FewCertify,
    /// Rounds without a direct decision before rounds with one.
    Anchors,
    /// One vertex alone certifies a leader, within an anchor's history or not.
    OneCertificate,
    /// Undecided rounds among decided ones, so that searches stop there.
    HeldUp,
    /// Up to f equivocators.
    TwinsUpToF,
    /// More than f equivocators.
    TwinsPastF,
    /// Two tables side by side in one, so that two leader vertices qualify.
    TwoSides,
    /// The same, the second side leaving leaders out: skip and commit both qualify.
    SkipAndCommit,
    /// Two sides that cross, so that an anchor has certificates of both.
    CrossedSides,
    /// Many vertices of one author in one round.
    Crowd,
    /// The same, and nobody references them.
    CrowdAlone,
    /// Exactly as many records as the program holds.
    ProgramFull,
    /// 4,096 records.
    Large,
    /// One fault.
    Faulty(Fault),
    /// Several faults.
    ManyFaults,
    /// Not a multiple of 138 bytes.
    WrongLength,
    /// n is not one of the ten counts.
    WrongCount,
    /// n is one of the counts, the table was made for another.
    OtherCount,
    /// More than 4,096 records.
    TooMany,
    /// Not even n.
    EmptyInput,
    /// Only n.
    OneByte,
    /// More bytes than the program holds.
    OverLong,
    /// Bytes without any sense.
    Noise,
}

impl Kind {
    pub const ALL: [Kind; KINDS] = all_kinds();

    /// Kinds of tables that pass the check.
    pub const PASSING: [Kind; 19] = [
        Kind::Full,
        Kind::PartialView,
        Kind::LeftOut,
        Kind::Thin,
        Kind::BlankLeaders,
        Kind::HalfLeaders,
        Kind::FewCertify,
        Kind::Anchors,
        Kind::OneCertificate,
        Kind::HeldUp,
        Kind::TwinsUpToF,
        Kind::TwinsPastF,
        Kind::TwoSides,
        Kind::SkipAndCommit,
        Kind::CrossedSides,
        Kind::Crowd,
        Kind::CrowdAlone,
        Kind::ProgramFull,
        Kind::Large,
    ];

    /// Kinds that break the shape of an input and not a record.
    const MISSHAPEN: [Kind; 9] = [
        Kind::ManyFaults,
        Kind::WrongLength,
        Kind::WrongCount,
        Kind::OtherCount,
        Kind::TooMany,
        Kind::EmptyInput,
        Kind::OneByte,
        Kind::OverLong,
        Kind::Noise,
    ];

    pub fn name(self) -> String {
        match self {
            Kind::Faulty(fault) => format!("Faulty{fault:?}"),
            kind => format!("{kind:?}"),
        }
    }

    pub fn from_name(name: &str) -> Option<Kind> {
        Kind::ALL.into_iter().find(|kind| kind.name() == name)
    }

    /// Draws a kind for one of many cases. Most have tables that pass; the large
    /// ones are rare, as one of them costs as much as hundreds of others.
    pub fn draw(rng: &mut Rng) -> Kind {
        let kind = match rng.chance(60) {
            true => rng.pick(&Kind::PASSING),
            false => rng.pick(&Kind::ALL),
        };
        let large = [Kind::Large, Kind::ProgramFull];
        if large.contains(&kind) && !rng.chance(5) {
            return rng.pick(&[Kind::Anchors, Kind::CrossedSides]);
        }
        kind
    }
}

const KINDS: usize = Kind::PASSING.len() + Fault::ALL.len() + Kind::MISSHAPEN.len();

const fn all_kinds() -> [Kind; KINDS] {
    let faulty_from = Kind::PASSING.len();
    let misshapen_from = faulty_from + Fault::ALL.len();
    let mut all = [Kind::Full; KINDS];
    let mut i = 0;
    while i < KINDS {
        all[i] = if i < faulty_from {
            Kind::PASSING[i]
        } else if i < misshapen_from {
            Kind::Faulty(Fault::ALL[i - faulty_from])
        } else {
            Kind::MISSHAPEN[i - misshapen_from]
        };
        i += 1;
    }
    all
}

/// An input of the program: n and a table, or no byte at all.
pub fn input(kind: Kind, seed: u64) -> Vec<u8> {
    let (n, table) = table(kind, seed);
    match kind {
        Kind::EmptyInput => Vec::new(),
        _ => [vec![n], table].concat(),
    }
}

/// An author count and the bytes of a table.
pub fn table(kind: Kind, seed: u64) -> (u8, Vec<u8>) {
    let mut rng = Rng::new(seed);
    if Kind::PASSING.contains(&kind) {
        let (n, vertices) = passing(kind, &mut rng);
        return (n, bytes(&records(&vertices)));
    }
    if let Kind::Faulty(fault) = kind {
        let (n, vertices) = small_passing(&mut rng);
        let mut records = records(&vertices);
        put(fault, n, &mut records, &mut rng);
        return (n, bytes(&records));
    }
    misshapen(kind, &mut rng)
}

fn records(vertices: &[Vertex]) -> Vec<Record> {
    vertices.iter().map(encode_mended).collect()
}

fn bytes(records: &[Record]) -> Vec<u8> {
    records.concat()
}

/// Mostly 4 and 7, and all ten.
fn author_count(rng: &mut Rng) -> u8 {
    match rng.below(100) {
        0..55 => 4,
        55..80 => 7,
        _ => rng.pick(&AUTHOR_COUNTS),
    }
}

/// A table to put faults in.
fn small_passing(rng: &mut Rng) -> (u8, Vec<Vertex>) {
    let small = [
        Kind::Full,
        Kind::PartialView,
        Kind::LeftOut,
        Kind::Thin,
        Kind::Anchors,
        Kind::TwinsUpToF,
        Kind::TwinsPastF,
    ];
    passing(rng.pick(&small), rng)
}

/// A table that passes the check.
fn passing(kind: Kind, rng: &mut Rng) -> (u8, Vec<Vertex>) {
    if kind == Kind::OneCertificate {
        let n = rng.pick(&[4, 4, 4, 7, 10, 13]);
        let full_before = rng.below(4) as u32;
        let rounds = full_before + rng.between(5, 8) as u32;
        return (n, one_certificate(n, full_before, rounds, rng));
    }
    let plan = match kind {
        Kind::TwinsUpToF | Kind::TwinsPastF => twin_plan(kind, rng),
        Kind::TwoSides | Kind::SkipAndCommit | Kind::CrossedSides => sides_plan(kind, rng),
        Kind::Crowd | Kind::CrowdAlone => crowd_plan(kind, rng),
        Kind::ProgramFull => large_plan(PROGRAM_RECORDS, rng),
        Kind::Large => large_plan(MOST_RECORDS, rng),
        _ => honest_plan(kind, rng),
    };
    let vertices = grow(&plan, rng);
    let whole = [Kind::Full, Kind::ProgramFull, Kind::Large].contains(&kind);
    let vertices = match kind {
        Kind::PartialView => {
            let seen = rng.pick(&[2, 5, 10, 30, 60, 80]);
            view(&vertices, seen, rng)
        }
        // A few of the last vertices may be out of sight in any kind.
        _ if !whole && rng.chance(30) => view(&vertices, 80, rng),
        _ => vertices,
    };
    (plan.n, vertices)
}

/// Up to about 64 records, and rounds enough for an anchor with any n.
fn rounds(n: u8, rng: &mut Rng) -> u32 {
    let most = (64 / usize::from(n)).max(7);
    match rng.chance(15) {
        true => rng.between(1, 4) as u32,
        false => rng.between(4, most) as u32,
    }
}

fn any_marks(rng: &mut Rng) -> Marks {
    rng.pick(&[Marks::Counted, Marks::Wide])
}

fn honest_plan(kind: Kind, rng: &mut Rng) -> Plan {
    let n = author_count(rng);
    let mut plan = Plan::full(n, rounds(n, rng));
    plan.marks = any_marks(rng);
    // Chances in 100: absent, left out, and the leader kept.
    let (absent, left_out, leader_kept): (usize, &[usize], &[usize]) = match kind {
        Kind::Full => (0, &[0], &[100]),
        Kind::PartialView => (5, &[10], &[100, 100, 80, 50]),
        Kind::LeftOut => (10, &[30], &[70]),
        Kind::Thin => (100, &[100], &[100, 80, 0]),
        Kind::BlankLeaders => (10, &[5], &[0, 10, 20, 100]),
        Kind::HalfLeaders => (5, &[15], &[40, 50, 60, 75, 100]),
        Kind::FewCertify => (0, &[0, 0, 30, 70], &[75, 80, 90, 100, 100]),
        // In turn: support by most, certified by few, then the anchor's round, or
        // one passed over and the anchor's; its vertices leave some out, so that
        // certificates may be outside its history.
        Kind::Anchors if rng.chance(50) => (0, &[0, 60, 90, 0, 0], &[75, 100, 100, 100, 100]),
        Kind::Anchors => (0, &[0, 60, 0, 90, 0, 0], &[75, 100, 100, 5, 100, 100]),
        _ => (0, &[0, 10], &[100, 100, 50, 50]),
    };
    plan.absent = absent;
    plan.left_out = left_out.to_vec();
    plan.leader_kept = leader_kept.to_vec();
    if kind == Kind::Anchors {
        plan.in_turn = Some(rng.below(6));
    }
    plan
}

/// `count` different authors.
fn some_authors(n: u8, count: usize, rng: &mut Rng) -> Vec<u8> {
    let mut authors: Vec<u8> = (0..n).collect();
    rng.shuffle(&mut authors);
    authors.truncate(count);
    authors
}

fn twin_plan(kind: Kind, rng: &mut Rng) -> Plan {
    let n = match rng.chance(70) {
        true => 4,
        false => author_count(rng),
    };
    let (f, all) = (f_of(n), usize::from(n));
    let mut plan = Plan::full(n, rounds(n, rng));
    plan.marks = any_marks(rng);
    plan.leader_kept = vec![100, 100, 80, 60, 20];
    plan.absent = 5;
    plan.left_out = vec![0, 0, 20];
    plan.twin = vec![40];
    plan.most_twins = 3;
    plan.same_side = rng.pick(&[0, 50, 90]);
    let equivocators = match kind {
        Kind::TwinsUpToF => rng.between(1, f),
        _ => rng.between(f + 1, all),
    };
    plan.equivocators = some_authors(n, equivocators, rng);
    plan
}

/// Two tables side by side: everybody has two vertices in most rounds.
fn sides_plan(kind: Kind, rng: &mut Rng) -> Plan {
    let n = match rng.chance(70) {
        true => 4,
        false => author_count(rng),
    };
    let mut plan = Plan::full(n, rng.between(3, 9) as u32);
    plan.marks = any_marks(rng);
    plan.equivocators = (0..n).collect();
    plan.leader_kept = vec![100, 100, 100, 75];
    plan.left_out = vec![3];
    plan.twin = vec![92];
    plan.same_side = 97;
    if kind == Kind::SkipAndCommit {
        plan.second_blank = 60;
    }
    if kind == Kind::CrossedSides {
        // In turn: twins of the leader, twins that support one each, and rounds
        // without twins, of which the first certifies either.
        plan.rounds = rng.between(6, 12) as u32;
        plan.in_turn = Some(rng.below(5));
        plan.leader_kept = vec![100];
        plan.twin = vec![100, 100, 0, 0, 0];
    }
    plan
}

fn crowd_plan(kind: Kind, rng: &mut Rng) -> Plan {
    let n = rng.pick(&[4, 4, 4, 7, 10]);
    let mut plan = Plan::full(n, rng.between(3, 7) as u32);
    plan.marks = any_marks(rng);
    plan.leader_kept = vec![100, 90, 60];
    plan.left_out = vec![10];
    plan.same_side = rng.pick(&[0, 100]);
    let crowds = rng.pick(&[1, 1, 2, 3]);
    let first = rng.between(1, plan.rounds as usize) as u32;
    // A crowd of leader vertices, or after it crowds that may support and certify.
    let leader = leader(n, first);
    for i in 0..crowds {
        plan.crowds.push(Crowd {
            round: first + i as u32,
            author: match rng.chance(70) {
                true => leader,
                false => rng.below(usize::from(n)) as u8,
            },
            vertices: rng.between(20, 300 / crowds),
            referenced: kind == Kind::Crowd,
        });
    }
    plan
}

/// Exactly this many records, of several shapes.
fn large_plan(records: usize, rng: &mut Rng) -> Plan {
    let n = rng.pick(&[4, 4, 4, 7, 13, 31]);
    // The records never suffice for more rounds; the table is cut.
    let mut plan = Plan::full(n, MOST_ROUNDS);
    plan.most_records = records;
    match rng.below(4) {
        0 => {}
        1 => {
            plan.absent = 100;
            plan.left_out = vec![100];
            plan.leader_kept = vec![100, 100, 70, 0];
        }
        2 => {
            plan.leader_kept = vec![100, 80, 50, 0];
            plan.left_out = vec![0, 20];
            plan.equivocators = some_authors(n, usize::from(n) / 2, rng);
            plan.twin = vec![30];
            plan.most_twins = 4;
            plan.marks = Marks::Wide;
        }
        _ => {
            for round in 1..=3 {
                plan.crowds.push(Crowd {
                    round,
                    author: 0,
                    vertices: records / 4,
                    referenced: true,
                });
            }
        }
    }
    plan
}

fn misshapen(kind: Kind, rng: &mut Rng) -> (u8, Vec<u8>) {
    let (n, vertices) = small_passing(rng);
    let mut records = records(&vertices);
    match kind {
        Kind::ManyFaults => {
            for _ in 0..rng.between(2, 4) {
                put(rng.pick(&Fault::ALL), n, &mut records, rng);
            }
            (n, bytes(&records))
        }
        Kind::WrongLength => (n, wrong_length(bytes(&records), rng)),
        Kind::WrongCount => (wrong_count(rng), bytes(&records)),
        Kind::OtherCount => (rng.pick(&AUTHOR_COUNTS), bytes(&records)),
        Kind::TooMany => (n, over(RECORD_BYTES * MOST_RECORDS, &bytes(&records), rng)),
        Kind::OverLong => (n, over(PROGRAM_BYTES - 1, &bytes(&records), rng)),
        Kind::Noise => {
            let length = rng.pick(&[1, 137, 138, 139, 276, 1_000]);
            (author_count(rng), (0..length).map(|_| rng.byte()).collect())
        }
        // No table; n counts only if the input has a byte.
        _ => match rng.chance(60) {
            true => (n, Vec::new()),
            false => (wrong_count(rng), Vec::new()),
        },
    }
}

fn wrong_count(rng: &mut Rng) -> u8 {
    let any = rng.byte();
    match rng.pick(&[0, 1, 3, 5, 6, 32, 34, 255, any]) {
        n if AUTHOR_COUNTS.contains(&n) => n + 1,
        n => n,
    }
}

fn wrong_length(mut table: Vec<u8>, rng: &mut Rng) -> Vec<u8> {
    let cut = rng.pick(&[1, 2, 69, 136, 137]);
    match table.len() > cut && rng.chance(50) {
        true => table.truncate(table.len() - cut),
        false => table.extend(std::iter::repeat_n(0, cut)),
    }
    table
}

/// Longer than `most`, by one byte or more.
fn over(most: usize, table: &[u8], rng: &mut Rng) -> Vec<u8> {
    let by = rng.pick(&[1, RECORD_BYTES, RECORD_BYTES, 2 * RECORD_BYTES, 10_000]);
    let filler = match table.is_empty() {
        true => &[0],
        false => table,
    };
    filler.iter().copied().cycle().take(most + by).collect()
}

/// The bytes of a table of these vertices, with the sums mended.
pub fn bytes_of(vertices: &[Vertex]) -> Vec<u8> {
    bytes(&records(vertices))
}

/// An honest full table of exactly this many records.
pub fn honest(n: u8, records: usize) -> Vec<u8> {
    let mut plan = Plan::full(n, MOST_ROUNDS);
    plan.most_records = records;
    let vertices = grow(&plan, &mut Rng::new(1));
    bytes_of(&vertices)
}

/// How many cells a settlement needs, and how many order places and taken bytes. Of a
/// refused table no number is asked; it may have one cell.
pub fn needed(n: u8, table: &[u8]) -> (usize, usize) {
    let mut records = table.chunks(RECORD_BYTES);
    let rounds = match check(n, table) {
        Ok(()) => records.next_back().map_or(0, |last| decode(last).round),
        Err(_) => 1,
    };
    (rounds as usize, table.len() / RECORD_BYTES)
}

/// Lends memory that is exact, longer, or now and then too short.
pub fn lent(n: u8, table: &[u8], seed: u64) -> Lent {
    let mut rng = Rng::new(seed ^ 0x1E47);
    let (rounds, records) = needed(n, table);
    let cells = lent_length(rounds, &mut rng);
    let order = lent_length(records, &mut rng);
    let taken = lent_length(records, &mut rng);
    Lent {
        cells: (0..cells).map(|_| rng.word()).collect(),
        order: (0..order).map(|_| rng.word()).collect(),
        taken: (0..taken).map(|_| rng.byte()).collect(),
    }
}

fn lent_length(needed: usize, rng: &mut Rng) -> usize {
    match rng.below(100) {
        0..55 => needed,
        55..92 => needed + rng.between(1, 5),
        92..97 => needed.saturating_sub(1),
        _ => rng.below(needed + 1),
    }
}

/// A name to look up: one of the table's, one next to it, or any.
pub fn question(table: &[u8], seed: u64) -> Name {
    let mut rng = Rng::new(seed ^ 0x9E57);
    let records = table.len() / RECORD_BYTES;
    if records == 0 || rng.chance(10) {
        let round = rng.pick(&[0, 1, 2, u32::MAX]);
        return name(round, rng.pick(&[0, 1, 4, 255]), rng.pick(&[0, 1, round]));
    }
    let p = rng.below(records);
    let mut name = decode(&table[p * RECORD_BYTES..(p + 1) * RECORD_BYTES]).name();
    match rng.below(10) {
        0 => name.round = name.round.wrapping_add(1),
        1 => name.author = name.author.wrapping_add(1),
        2 => name.mark = name.mark.wrapping_add(1),
        3 => name.mark = 0,
        _ => {}
    }
    name
}
