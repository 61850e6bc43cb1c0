//! Large tables that are made to cost a settlement as much as they can.

use crate::authors::{leader, quorum};
use crate::check::MOST_ROUNDS;
use crate::generate::bytes_of;
use crate::grow::{grow, Crowd, Plan};
use crate::record::{Vertex, MOST_RECORDS};
use crate::rng::Rng;

/// A table and what is hard about it.
pub struct Hostile {
    pub what: &'static str,
    pub table: Vec<u8>,
}

/// Makes a table for an n.
type Maker = fn(u8) -> Vec<Vertex>;

/// All of them for one n.
pub fn hostile(n: u8) -> Vec<Hostile> {
    let all: [(&str, Maker); 6] = [
        ("2f+1 authors a round", tallest),
        ("twins with support", supported_twins),
        ("twins without support", lone_twins),
        ("twins nobody references", shunned_twins),
        ("one far anchor", far_anchor),
        ("everybody's twins", widest),
    ];
    all.map(|(what, make)| Hostile {
        what,
        table: bytes_of(&make(n)),
    })
    .into()
}

fn full(n: u8) -> Plan {
    let mut plan = Plan::full(n, MOST_ROUNDS);
    plan.most_records = MOST_RECORDS;
    plan
}

/// As many rounds as the records suffice for: with n = 4, 1,366.
fn tallest(n: u8) -> Vec<Vertex> {
    let mut plan = full(n);
    plan.absent = 100;
    grow(&plan, &mut Rng::new(1))
}

fn crowd(round: u32, author: u8, vertices: usize) -> Crowd {
    Crowd {
        round,
        author,
        vertices,
        referenced: true,
    }
}

/// Many twins of the leader of round 1, each with 2f+1 authors of round 2 that
/// support it, and as many vertices of one author in round 3 as there is room for,
/// each of which certifies one of them. The others certify none: what they reference
/// supports a twin each. So no twin is committed, and each has to be looked at.
fn supported_twins(n: u8) -> Vec<Vertex> {
    let supporters = quorum(n) as u8;
    let twins = MOST_RECORDS / (usize::from(supporters) + 3);
    let mut plan = full(n);
    plan.same_side = 100;
    plan.crowds.push(crowd(1, leader(n, 1), twins));
    for author in 0..supporters {
        plan.crowds.push(crowd(2, author, twins));
    }
    // The last author, so that the others are there where the table is cut.
    plan.crowds.push(crowd(3, n - 1, MOST_RECORDS));
    let mut vertices = grow(&plan, &mut Rng::new(1));
    for vertex in &mut vertices {
        if vertex.round == 3 && vertex.author < n - 1 {
            let supported = &mut vertex.refs[..usize::from(supporters)];
            supported
                .iter_mut()
                .zip(1..)
                .for_each(|(mark, twin)| *mark = twin);
        }
    }
    vertices
}

/// A third of the table twins of the leader of round 1, and two thirds twins of one
/// other author that reference them: no twin has the support of three authors.
fn lone_twins(n: u8) -> Vec<Vertex> {
    let mut plan = full(n);
    plan.crowds.push(crowd(1, leader(n, 1), MOST_RECORDS / 3));
    plan.crowds.push(crowd(2, n - 1, MOST_RECORDS / 3));
    plan.crowds.push(crowd(3, n - 1, MOST_RECORDS));
    grow(&plan, &mut Rng::new(1))
}

/// Twins of the leader in each of three rounds, and nobody references them.
fn shunned_twins(n: u8) -> Vec<Vertex> {
    let mut plan = full(n);
    for round in 1..=3 {
        plan.crowds.push(Crowd {
            round,
            author: leader(n, round),
            vertices: MOST_RECORDS / 3 - usize::from(n),
            referenced: false,
        });
    }
    grow(&plan, &mut Rng::new(1))
}

/// Three rounds in which every author has as many twins as there is room for, which
/// reference each other by chance.
fn widest(n: u8) -> Vec<Vertex> {
    let mut plan = full(n);
    plan.rounds = 3;
    for round in 1..=3 {
        for author in 0..n {
            let twins = MOST_RECORDS / 3 / usize::from(n);
            plan.crowds.push(crowd(round, author, twins));
        }
    }
    grow(&plan, &mut Rng::new(1))
}

/// Every round but the last has too few who support its leader vertex and too few who
/// leave it out, so that each is decided through the same anchor at the table's end.
fn far_anchor(n: u8) -> Vec<Vertex> {
    let rounds = (MOST_RECORDS / usize::from(n)) as u32;
    let mut plan = Plan::full(n, rounds);
    plan.most_records = MOST_RECORDS;
    let mut vertices = grow(&plan, &mut Rng::new(1));
    for vertex in &mut vertices {
        // Three rounds that are decided directly, and the two after each of them.
        let late = vertex.round + 5 > rounds;
        if vertex.round > 1 && !late && vertex.author >= n.div_ceil(2) {
            let left_out = usize::from(leader(n, vertex.round - 1));
            vertex.refs[left_out] = 0;
        }
    }
    vertices
}
