//! The changes that make a question smaller or plainer. Each is tried by itself; whether the
//! table still passes the check does not matter, only whether the answers still differ.

use super::question::{change, Question};
use crate::authors::{is_author_count, AUTHOR_COUNTS};
use crate::check::MOST_ROUNDS;
use crate::record::{encode, sum_of, Name, Vertex};
use std::collections::BTreeSet;
use std::iter::successors;
use std::ops::Range;

/// The copies of a question with one change of one kind.
type Changes<'a> = Box<dyn Iterator<Item = Question> + 'a>;
pub type Step = for<'a> fn(&'a Question) -> Changes<'a>;

pub const STEPS: [Step; 7] = [
    exact_buffers,
    fewer_authors,
    shorter_rest,
    fewer_records,
    lower_rounds,
    fewer_references,
    usual_fields,
];

/// As many as are needed, or one more or fewer.
fn exact_buffers(question: &Question) -> Changes<'_> {
    let wrong = (0..3).filter(|&i| question.beyond[i] != 0);
    Box::new(wrong.flat_map(move |i| {
        let nearer = [0, question.beyond[i].signum()].into_iter();
        let nearer = nearer.filter(move |&beyond| beyond != question.beyond[i]);
        nearer.map(move |beyond| question.with(|q| q.beyond[i] = beyond))
    }))
}

/// A lower n, without the authors that it does not have.
fn fewer_authors(question: &Question) -> Changes<'_> {
    let lower = AUTHOR_COUNTS.into_iter().filter(|&n| n < question.n);
    Box::new(lower.map(|n| {
        question.with(|q| {
            q.n = n;
            q.vertices.retain(|vertex| vertex.author < n);
            q.refer(|name| if name.author < n { name.mark } else { 0 });
        })
    }))
}

/// No bytes behind the last record, or one.
fn shorter_rest(question: &Question) -> Changes<'_> {
    let lengths = (0..2).filter(|&length| length < question.rest.len());
    Box::new(lengths.map(|length| question.with(|q| q.rest.truncate(length))))
}

/// Without some neighbours, many first and at last each by itself: they are dropped with
/// the references to them, or without.
fn fewer_records(question: &Question) -> Changes<'_> {
    let count = question.vertices.len();
    let sizes = successors(Some(count), |size| Some(size / 2)).take_while(|&size| size > 0);
    let ranges = sizes.flat_map(move |size| {
        let begins = (0..count).step_by(size).rev();
        begins.map(move |begin| begin..count.min(begin + size))
    });
    Box::new(ranges.flat_map(|range| {
        let dropped = question.with(|q| drop(q.vertices.drain(range.clone())));
        [dropped, without(question, range)]
    }))
}

fn without(question: &Question, range: Range<usize>) -> Question {
    let dropped = &question.vertices[range.clone()];
    let dropped: BTreeSet<Name> = dropped.iter().map(Vertex::name).collect();
    question.with(|q| {
        q.vertices.drain(range);
        q.refer(|name| {
            if dropped.contains(&name) {
                0
            } else {
                name.mark
            }
        });
    })
}

/// Round 1 is dropped and every other becomes the one below it. Authors are numbered anew,
/// so that leaders stay leaders.
fn lower_rounds(question: &Question) -> Changes<'_> {
    let highest = question.vertices.iter().map(|vertex| vertex.round).max();
    // From a far round there is no end of steps, and no table passes with one.
    let can = is_author_count(question.n)
        && highest.is_some_and(|round| (2..=MOST_ROUNDS).contains(&round));
    let lowered = can.then(|| question.with(lower));
    Box::new(lowered.into_iter())
}

fn lower(question: &mut Question) {
    let n = question.n;
    let before = |author: u8| match author {
        0 => n - 1,
        _ if author < n => author - 1,
        past_n => past_n,
    };
    question.vertices.retain(|vertex| vertex.round > 1);
    for vertex in &mut question.vertices {
        change(vertex, |vertex| {
            vertex.round -= 1;
            vertex.author = before(vertex.author);
            vertex.refs[..usize::from(n)].rotate_left(1);
            if vertex.round == 1 {
                vertex.refs.fill(0);
            }
        });
    }
    question.vertices.sort_by_key(Vertex::name);
    question.name.round = question.name.round.saturating_sub(1);
    question.name.author = before(question.name.author);
}

fn fewer_references(question: &Question) -> Changes<'_> {
    let vertices = question.vertices.iter().enumerate();
    let references = vertices.flat_map(|(p, vertex)| {
        let entries = (0..vertex.refs.len()).filter(|&author| vertex.refs[author] != 0);
        entries.map(move |author| (p, author))
    });
    Box::new(references.map(|(p, author)| {
        question.with(|q| change(&mut q.vertices[p], |vertex| vertex.refs[author] = 0))
    }))
}

/// What a record's line in the text form need not say: of all records at once, then of each.
fn usual_fields(question: &Question) -> Changes<'_> {
    let fields: [fn(&mut Question, usize); 4] = [
        |q, p| change(&mut q.vertices[p], |vertex| vertex.batches = 0),
        |q, p| change(&mut q.vertices[p], |vertex| vertex.padding = 0),
        |q, p| q.vertices[p].sum = sum_of(&encode(&q.vertices[p])),
        low_mark,
    ];
    let count = question.vertices.len();
    let scopes = std::iter::once(0..count).chain((0..count).map(|p| p..p + 1));
    let changes = scopes.flat_map(move |scope| {
        let change = move |field: fn(&mut Question, usize)| {
            question.with(|q| scope.clone().for_each(|p| field(q, p)))
        };
        fields.map(change)
    });
    Box::new(changes.filter(move |changed| changed != question))
}

/// The lowest mark that the author has not used in the round, if it is lower.
fn low_mark(question: &mut Question, p: usize) {
    let named = question.vertices[p].name();
    let used: BTreeSet<Name> = question.vertices.iter().map(Vertex::name).collect();
    let free = (1..named.mark).find(|&mark| !used.contains(&Name { mark, ..named }));
    let Some(mark) = free else {
        return;
    };
    change(&mut question.vertices[p], |vertex| vertex.mark = mark);
    question.refer(|name| if name == named { mark } else { name.mark });
    if question.name == named {
        question.name.mark = mark;
    }
}
