//! A refusal in words.

use crate::authors::quorum;
use crate::check::Refusal;
use crate::record::{encode, sum_of, Vertex, MOST_RECORDS};

/// What is wrong, of the table or of the record that the refusal is about.
pub fn in_words(n: u8, vertices: &[Vertex], refusal: Refusal) -> String {
    let number = refusal.number;
    match number {
        1 => format!("{n} is not one of the author counts 4, 7, 10, .. 31"),
        2 => "the length is not a multiple of 138".to_string(),
        3 => format!("{} records, more than {MOST_RECORDS}", vertices.len()),
        _ => {
            let vertex = vertices.get(refusal.position);
            let what = vertex.and_then(|vertex| of_record(number, n, vertex));
            // No picture has another refusal today. Its number is all that is known of it.
            what.unwrap_or_else(|| format!("check {number} fails"))
        }
    }
}

/// Which record it is and what is wrong with it, by the number of the check; nothing for a
/// number that is not about a record.
fn of_record(number: u8, n: u8, vertex: &Vertex) -> Option<String> {
    let (round, author, mark) = (vertex.round, vertex.author, vertex.mark);
    let what = match number {
        4 => {
            let right = sum_of(&encode(vertex));
            format!("the sum is {} and ought to be {right}", vertex.sum)
        }
        5 => format!("the padding is {} and ought to be 0", vertex.padding),
        18 => "the round is 0, and rounds start at 1".to_string(),
        19 => "the mark is 0, and a mark is never 0".to_string(),
        20 => format!("the author is {author}, and authors are 0 to {}", n - 1),
        6 => "the name is not above the one before it".to_string(),
        7 => of_entries(n, vertex),
        8 => "a reference names no record earlier in the table".to_string(),
        _ => return None,
    };
    Some(format!(
        "round {round}, author {author}, mark {mark}: {what}"
    ))
}

fn of_entries(n: u8, vertex: &Vertex) -> String {
    if vertex.round == 1 && vertex.references() > 0 {
        return "a reference in round 1".to_string();
    }
    let past = vertex.refs.iter().skip(usize::from(n));
    if past.clone().any(|&mark| mark != 0) {
        return format!("a reference to author {n} or more");
    }
    let (has, least) = (vertex.references(), quorum(n));
    format!("{has} references, fewer than 2f+1 = {least}")
}
