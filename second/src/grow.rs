//! Grows random tables that pass the check, round after round.

use crate::authors::{leader, quorum};
use crate::record::{Name, Vertex, ENTRIES};
use crate::rng::Rng;
use std::collections::{BTreeMap, BTreeSet};

/// How marks are drawn.
#[derive(Clone, Copy, Debug, PartialEq, Eq)]
pub enum Marks {
    /// 1, and 2, 3, .. for further vertices of the author in the round.
    Counted,
    /// From all 32 bits, often next to where a byte is full.
    Wide,
}

/// Many vertices of one author in one round.
#[derive(Clone, Copy, Debug)]
pub struct Crowd {
    pub round: u32,
    pub author: u8,
    pub vertices: usize,
    /// If not, the next round leaves this author out wherever 2f+1 others are there.
    pub referenced: bool,
}

/// What a table is grown by. All chances are in 100.
#[derive(Clone, Debug)]
pub struct Plan {
    pub n: u8,
    pub rounds: u32,
    pub most_records: usize,
    /// An author has no vertex in a round; 2f+1 always have one.
    pub absent: usize,
    /// If set, the three lists below are gone through in turn, starting here;
    /// else one of each list is drawn for each round.
    pub in_turn: Option<usize>,
    /// A vertex leaves out an author that is not the leader; 2f+1 are always kept.
    pub left_out: Vec<usize>,
    /// A vertex references the leader of the round before.
    pub leader_kept: Vec<usize>,
    /// An equivocator has several vertices in a round.
    pub twin: Vec<usize>,
    pub most_twins: usize,
    /// The authors that may have several vertices in a round.
    pub equivocators: Vec<u8>,
    /// Of an author's several vertices, a vertex references the one of its own
    /// side. So two tables in one are grown, side by side.
    pub same_side: usize,
    /// In a round, drawn for each: all but the vertices of the first side leave the
    /// leader out.
    pub second_blank: usize,
    pub crowds: Vec<Crowd>,
    pub marks: Marks,
}

impl Plan {
    /// Honest and full.
    pub fn full(n: u8, rounds: u32) -> Plan {
        Plan {
            n,
            rounds,
            most_records: 474,
            absent: 0,
            in_turn: None,
            left_out: vec![0],
            leader_kept: vec![100],
            equivocators: Vec::new(),
            twin: vec![0],
            most_twins: 2,
            same_side: 0,
            second_blank: 0,
            crowds: Vec::new(),
            marks: Marks::Counted,
        }
    }
}

/// A round's chance from one of a plan's lists.
fn of_list(plan: &Plan, list: &[usize], round: u32, rng: &mut Rng) -> usize {
    match plan.in_turn {
        Some(start) => list[(start + round as usize) % list.len()],
        None => rng.pick(list),
    }
}

/// The marks of each author in one round, lowest first; none for an absent author.
type RoundMarks = Vec<Vec<u32>>;

/// What is drawn once for a round and holds for all its vertices.
struct Mood {
    left_out: usize,
    leader_kept: usize,
    second_blank: bool,
    /// The author of a crowd that is not to be referenced.
    shunned: Option<u8>,
}

/// Grows a table. It is cut at `most_records`; the beginning of a table that
/// passes also passes.
pub fn grow(plan: &Plan, rng: &mut Rng) -> Vec<Vertex> {
    let mut vertices = Vec::new();
    let mut before: RoundMarks = Vec::new();
    for round in 1..=plan.rounds {
        let mood = mood(plan, round, rng);
        let marks = round_marks(plan, round, rng);
        for author in 0..plan.n {
            let own = &marks[usize::from(author)];
            for (place, &mark) in own.iter().enumerate() {
                // Several vertices take a side each, a single one takes either.
                let side = match own.len() {
                    1 => rng.below(2),
                    _ => place,
                };
                let refs = match round {
                    1 => [0; ENTRIES],
                    _ => refs(plan, round, side, &before, &mood, rng),
                };
                vertices.push(vertex(round, author, mark, refs, rng));
            }
        }
        before = marks;
        if vertices.len() >= plan.most_records {
            vertices.truncate(plan.most_records);
            break;
        }
    }
    vertices
}

fn vertex(round: u32, author: u8, mark: u32, refs: [u32; ENTRIES], rng: &mut Rng) -> Vertex {
    Vertex {
        round,
        mark,
        refs,
        batches: u16::from_le_bytes([rng.byte(), rng.byte()]),
        author,
        padding: 0,
        sum: 0,
    }
}

fn mood(plan: &Plan, round: u32, rng: &mut Rng) -> Mood {
    let crowd = plan
        .crowds
        .iter()
        .find(|crowd| crowd.round + 1 == round && !crowd.referenced);
    Mood {
        left_out: of_list(plan, &plan.left_out, round, rng),
        leader_kept: of_list(plan, &plan.leader_kept, round, rng),
        second_blank: rng.chance(plan.second_blank),
        shunned: crowd.map(|crowd| crowd.author),
    }
}

/// Draws who has vertices in a round, and their marks.
fn round_marks(plan: &Plan, round: u32, rng: &mut Rng) -> RoundMarks {
    let mut authors: Vec<u8> = (0..plan.n).collect();
    rng.shuffle(&mut authors);
    let sure = authors.split_off(plan.n as usize - quorum(plan.n));
    authors.retain(|_| !rng.chance(plan.absent));
    authors.extend(sure);
    let twin = of_list(plan, &plan.twin, round, rng);
    let mut marks = vec![Vec::new(); usize::from(plan.n)];
    for author in authors {
        let count = match plan.equivocators.contains(&author) && rng.chance(twin) {
            true => rng.between(2, plan.most_twins),
            false => 1,
        };
        let count = crowd_at(plan, round, author).unwrap_or(count);
        marks[usize::from(author)] = draw_marks(plan.marks, count, rng);
    }
    marks
}

/// How many vertices the author's crowd in this round has, if there is one.
fn crowd_at(plan: &Plan, round: u32, author: u8) -> Option<usize> {
    let mut crowds = plan.crowds.iter();
    let crowd = crowds.find(|crowd| crowd.round == round && crowd.author == author);
    crowd.map(|crowd| crowd.vertices)
}

/// Different marks, lowest first, none of them 0.
pub fn draw_marks(marks: Marks, count: usize, rng: &mut Rng) -> Vec<u32> {
    let mut drawn = BTreeSet::new();
    while drawn.len() < count {
        let mark = match marks {
            Marks::Counted => drawn.len() as u32 + 1,
            Marks::Wide => wide_mark(rng),
        };
        drawn.insert(mark);
    }
    drawn.into_iter().collect()
}

fn wide_mark(rng: &mut Rng) -> u32 {
    let edge = rng.pick(&[1, 0xFF, 0x100, 0xFFFF, 0x1_0000, 0xFF_FFFF, 0x100_0000]);
    match rng.below(4) {
        0 => edge,
        1 => edge + rng.word() % 3,
        2 => u32::MAX - rng.word() % 3,
        _ => rng.word().max(1),
    }
}

/// Draws the references of one vertex.
fn refs(
    plan: &Plan,
    round: u32,
    side: usize,
    before: &RoundMarks,
    mood: &Mood,
    rng: &mut Rng,
) -> [u32; ENTRIES] {
    let leader = leader(plan.n, round - 1);
    let mut kept = Vec::new();
    let mut spare = Vec::new();
    for author in 0..plan.n {
        if before[usize::from(author)].is_empty() {
            continue;
        }
        let in_100 = if mood.shunned == Some(author) {
            0
        } else if author != leader {
            100 - mood.left_out
        } else if mood.second_blank && side > 0 {
            0
        } else {
            mood.leader_kept
        };
        match rng.chance(in_100) {
            true => kept.push(author),
            false => spare.push(author),
        }
    }
    rng.shuffle(&mut spare);
    // The shunned and the leader last, so that they stay out wherever they can.
    spare.sort_by_key(|&author| (mood.shunned == Some(author), author == leader));
    let wanted = quorum(plan.n).saturating_sub(kept.len());
    kept.extend(spare.into_iter().take(wanted));
    let mut refs = [0; ENTRIES];
    for author in kept {
        refs[usize::from(author)] = one_mark(plan, side, &before[usize::from(author)], rng);
    }
    refs
}

/// Which of an author's marks a vertex references.
fn one_mark(plan: &Plan, side: usize, marks: &[u32], rng: &mut Rng) -> u32 {
    match rng.chance(plan.same_side) {
        true => marks[side % marks.len()],
        false => rng.pick(marks),
    }
}

/// A table in which one vertex alone certifies the leader of round r, where r is
/// `full_before` + 1, and an anchor may have it in its history or not.
pub fn one_certificate(n: u8, full_before: u32, rounds: u32, rng: &mut Rng) -> Vec<Vertex> {
    let r = full_before + 1;
    let mut authors: Vec<u8> = (0..n).collect();
    rng.shuffle(&mut authors);
    let (supporters, others) = authors.split_at(quorum(n));
    let certifier = rng.below(usize::from(n)) as u8;
    let mut vertices = Vec::new();
    for round in 1..=rounds {
        for author in 0..n {
            let mut left_out = Vec::new();
            if round == r + 1 && others.contains(&author) {
                left_out.push(leader(n, r));
            } else if round == r + 2 && author == certifier {
                left_out.extend(others);
            } else if round == r + 2 {
                left_out.push(rng.pick(supporters));
            } else if round == r + 3 && rng.chance(50) {
                left_out.push(certifier);
            } else if rng.chance(3) {
                left_out.push(rng.pick(&authors));
            }
            let mut refs = [0; ENTRIES];
            for other in (0..n).filter(|other| round > 1 && !left_out.contains(other)) {
                refs[usize::from(other)] = 1;
            }
            vertices.push(vertex(round, author, 1, refs, rng));
        }
    }
    vertices
}

/// A part of a table that holds with each vertex all that it references: what one
/// box may have seen so far. Each of the last vertices is seen or not, by chance.
pub fn view(vertices: &[Vertex], seen: usize, rng: &mut Rng) -> Vec<Vertex> {
    let positions: BTreeMap<Name, usize> = vertices
        .iter()
        .enumerate()
        .map(|(position, vertex)| (vertex.name(), position))
        .collect();
    let mut kept: Vec<bool> = vertices.iter().map(|_| rng.chance(seen)).collect();
    for p in (0..vertices.len()).rev() {
        if kept[p] {
            for name in vertices[p].referenced() {
                kept[positions[&name]] = true;
            }
        }
    }
    let mut kept = kept.into_iter();
    let mut seen = vertices.to_vec();
    seen.retain(|_| kept.next() == Some(true));
    seen
}
