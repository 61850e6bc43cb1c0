//! Pictures of tables.

use crate::stored::{example, folder, names};
use second::draw::draw;
use second::examples::skipped_in_between;
use second::generate::{table, Kind};
use second::record::{decode, Name, Vertex};
use second::text::{read, Text};
use std::collections::BTreeSet;

/// A start tag, an end tag or an element without contents.
struct Tag<'a> {
    name: &'a str,
    attributes: Vec<(&'a str, &'a str)>,
    ends: bool,
    empty: bool,
}

impl<'a> Tag<'a> {
    fn has(&self, name: &str, value: &str) -> bool {
        self.attributes.contains(&(name, value))
    }

    fn get(&self, name: &str) -> Option<&'a str> {
        let mut attributes = self.attributes.iter();
        attributes
            .find(|(of, _)| *of == name)
            .map(|(_, value)| *value)
    }

    fn number(&self, name: &str) -> f64 {
        let value = self.get(name).expect("the attribute");
        value.parse().expect("a number")
    }
}

/// The tags of an XML text. What no XML has is a failure.
fn tags(xml: &str) -> Vec<Tag<'_>> {
    let mut tags = Vec::new();
    let mut rest = xml;
    while let Some((before, from_tag)) = rest.split_once('<') {
        well_escaped(before);
        let (inside, after) = from_tag.split_once('>').expect("a tag ends");
        tags.push(tag(inside));
        rest = after;
    }
    assert_eq!(rest.trim(), "", "after the last tag");
    tags
}

fn tag(inside: &str) -> Tag<'_> {
    let (inside, empty) = match inside.strip_suffix('/') {
        Some(inside) => (inside, true),
        None => (inside, false),
    };
    let (inside, ends) = match inside.strip_prefix('/') {
        Some(inside) => (inside, true),
        None => (inside, false),
    };
    let (name, mut rest) = inside.split_once(' ').unwrap_or((inside, ""));
    let mut attributes: Vec<(&str, &str)> = Vec::new();
    while !rest.trim().is_empty() {
        let (name, from_value) = rest.split_once("=\"").expect("a value");
        let (value, after) = from_value.split_once('"').expect("a value ends");
        well_escaped(value);
        let name = name.trim();
        assert!(
            attributes.iter().all(|&(other, _)| other != name),
            "{inside}"
        );
        attributes.push((name, value));
        rest = after;
    }
    Tag {
        name,
        attributes,
        ends,
        empty,
    }
}

fn well_escaped(words: &str) {
    assert!(!words.contains(['<', '>']), "{words}");
    assert!(
        !words.contains(|c: char| c.is_control() && c != '\n'),
        "{words}"
    );
    for after in words.split('&').skip(1) {
        let known = ["amp;", "lt;", "gt;", "quot;", "apos;"];
        assert!(known.iter().any(|name| after.starts_with(name)), "{words}");
    }
}

/// Tags balance, and one element holds all others.
fn balance(tags: &[Tag<'_>]) {
    let mut open = Vec::new();
    for (i, tag) in tags.iter().enumerate() {
        assert!(i == 0 || !open.is_empty(), "two roots");
        if tag.ends {
            assert_eq!(open.pop(), Some(tag.name));
        } else if !tag.empty {
            open.push(tag.name);
        }
    }
    assert!(open.is_empty(), "{open:?}");
}

fn count(tags: &[Tag<'_>], name: &str) -> usize {
    tags.iter()
        .filter(|tag| tag.name == name && !tag.ends)
        .count()
}

/// References that name a record of the table.
fn named(table: &[u8]) -> usize {
    let vertices: Vec<Vertex> = table.chunks(138).map(decode).collect();
    let names: BTreeSet<Name> = vertices.iter().map(Vertex::name).collect();
    let entries = vertices.iter().flat_map(|vertex| {
        let round = vertex.round.wrapping_sub(1);
        (0u8..).zip(vertex.refs).map(move |(author, mark)| Name {
            round,
            author,
            mark,
        })
    });
    entries
        .filter(|name| name.mark != 0 && name.round != u32::MAX && names.contains(name))
        .count()
}

/// A circle for each record, a line for each reference that names one.
fn complete(text: &Text, what: &str) {
    let picture = draw(text);
    let tags = tags(&picture);
    balance(&tags);
    assert_eq!(count(&tags, "circle"), text.table.len() / 138, "{what}");
    assert_eq!(count(&tags, "line"), named(&text.table), "{what}");
}

#[test]
fn examples_are_drawn_whole() {
    for name in names() {
        complete(&example(&name), &name);
    }
}

/// All kinds of tables of whole records, refused ones among them.
#[test]
fn generated_tables_are_drawn_whole() {
    for kind in Kind::ALL {
        let seeds = match kind {
            Kind::Large | Kind::TooMany => 1,
            _ => 8,
        };
        for seed in 0..seeds {
            let (n, mut table) = table(kind, seed);
            table.truncate(table.len() / 138 * 138);
            let text = Text {
                title: None,
                n,
                table,
            };
            complete(&text, &format!("{kind:?} {seed}"));
        }
    }
}

/// What the frames around the leaders' places say, by round from 1.
fn leaders(name: &str) -> Vec<String> {
    let picture = draw(&example(name));
    let tags = tags(&picture);
    let framed = (1..).map_while(|round| {
        let id = format!("leader-{round}");
        let frame = tags.iter().find(|tag| tag.has("id", &id))?;
        frame.get("class").map(str::to_string)
    });
    framed.collect()
}

#[test]
fn leaders_show_their_decisions() {
    let (c, s, u) = ("committed", "skipped", "undecided");
    assert_eq!(leaders("p07"), [c, c, c, c, u, u]);
    assert_eq!(leaders("p08"), [s, c, c, c, u, u]);
    // The leader of round 1 has no vertex.
    assert_eq!(leaders("p05"), [s, u]);
    assert_eq!(leaders("p09"), [u, u]);
    assert_eq!(leaders("p13"), ["unsettled"; 2]);
    assert!(leaders("p01").is_empty());
}

/// What the written order has as numbers, and no number twice.
#[test]
fn written_vertices_have_their_places() {
    let picture = draw(&example("p07"));
    for place in 1..=13 {
        let hint = format!("; written as number {place}</title>");
        assert_eq!(picture.matches(&hint).count(), 1, "{place}");
    }
    assert!(!picture.contains("written as number 14"));
    let fourth = "position 4: round 2, author 0, mark 1, batches 0; supports (1, 0, 1); ";
    assert!(picture.contains(&format!("{fourth}written as number 9<")));
}

/// How often a class occurs.
fn classes(picture: &str, class: &str) -> usize {
    let tags = tags(picture);
    tags.iter().filter(|tag| tag.has("class", class)).count()
}

/// P7: the anchor references the only vertex that certifies. P8: the
/// anchor does not reference it.
#[test]
fn what_was_found_through_the_anchor_is_shown() {
    let p7 = draw(&example("p07"));
    let tags = tags(&p7);
    assert_eq!((classes(&p7, "path"), classes(&p7, "support")), (1, 6));
    assert_eq!((classes(&p7, "certifies"), classes(&p7, "outside")), (1, 0));
    let circles: Vec<&Tag> = tags
        .iter()
        .filter(|tag| tag.name == "circle" && !tag.ends)
        .collect();
    let ring = tags.iter().find(|tag| tag.has("class", "certifies"));
    let ring = ring.expect("a ring");
    let place = |tag: &Tag| (tag.number("cx"), tag.number("cy"));
    assert_eq!(place(ring), place(circles[8]));
    let ((x1, y1), (x2, y2)) = (place(circles[15]), place(circles[8]));
    let path = tags.iter().find(|tag| tag.has("class", "path"));
    let line = format!("M{x1} {y1}L{x2} {y2}");
    assert!(path.expect("a path").has("d", &line), "{line}");
    let deeds = "batches 0; supports (2, 1, 1); certifies (1, 0, 1); ";
    assert!(p7.contains(&format!("position 8: round 3, author 0, mark 1, {deeds}")));

    let p8 = draw(&example("p08"));
    assert_eq!((classes(&p8, "path"), classes(&p8, "support")), (0, 0));
    assert_eq!((classes(&p8, "certifies"), classes(&p8, "outside")), (0, 1));
}

/// The anchor of round 1 is in round 5, two steps above the certificate.
#[test]
fn a_path_may_have_several_steps() {
    let made = skipped_in_between();
    let text = Text {
        title: None,
        n: made.n,
        table: made.table(),
    };
    let picture = draw(&text);
    assert!(picture.contains(">through round 5<"));
    assert_eq!(classes(&picture, "path"), 2);
}

#[test]
fn direct_decisions_say_who_decided() {
    let p3 = draw(&example("p03"));
    assert!(p3.contains(">direct, 3 certify<"));
    let p5 = draw(&example("p05"));
    assert!(p5.contains(">direct, 3 blank<"));
    assert!(p5.contains("; blank for round 1<"));
}

#[test]
fn the_legend_names_what_is_there() {
    let all = [
        ("leader, committed", "p07 p08 p02"),
        ("leader, skipped", "p08 p05"),
        ("leader, undecided", "p07 p08 p02 p05 p09"),
        ("leader; nothing is decided", "p14"),
        ("committed leader vertex", "p07 p08 p02"),
        ("place in the written order", "p07 p08"),
        ("not written", "p07 p08 p02 p05 p09"),
        ("record that is refused", "p14"),
        ("other record", "p14"),
        ("one of several of its author", "p09"),
        ("reference to a leader vertex", "p07 p08 p02 p09"),
        ("reference to the round before", "p07 p08 p02 p05 p09 p14"),
        ("reference to no record", "p14"),
        ("certifies, in anchor&apos;s history", "p07"),
        ("path from the anchor to it", "p07"),
        ("support that makes it certify", "p07"),
        ("certifies, outside the history", "p08"),
    ];
    for name in ["p01", "p02", "p05", "p07", "p08", "p09", "p14"] {
        let picture = draw(&example(name));
        for (words, of) in all {
            let there = picture.contains(&format!(">{words}<"));
            assert_eq!(there, of.contains(name), "{name}: {words}");
        }
    }
}

/// Where words stand: left, right, top, bottom. Fonts differ, so they may be wide.
fn place_of_words(tag: &Tag, words: &str) -> [f64; 4] {
    let size = tag.number("font-size");
    let (x, y) = (tag.number("x"), tag.number("y"));
    let width = 0.6 * size * words.replace("&apos;", "'").chars().count() as f64;
    let left = match tag.get("text-anchor") {
        Some("start") => x,
        Some("middle") => x - width / 2.0,
        _ => x - width,
    };
    // Words below the picture have 242 before the next sample.
    let is_item = size == 13.0 && left == x;
    assert!(!is_item || width <= 242.0, "{words}");
    [left, left + width, y - 0.75 * size, y + 0.2 * size]
}

#[test]
fn words_do_not_overlap() {
    for name in names() {
        let picture = draw(&example(&name));
        let mut placed: Vec<([f64; 4], &str)> = Vec::new();
        for element in picture.split("<text ").skip(1) {
            let (attributes, rest) = element.split_once('>').expect("a tag ends");
            let (words, _) = rest.split_once('<').expect("an element ends");
            let attributes = format!("text {attributes}");
            let place = place_of_words(&tag(&attributes), words);
            let [left, right, top, bottom] = place;
            for ([l, r, t, b], others) in &placed {
                let apart = right <= *l || *r <= left || bottom <= *t || *b <= top;
                assert!(apart || words.is_empty(), "{name}: {words} and {others}");
            }
            placed.push((place, words));
        }
    }
}

/// The refusal in words, and one record in red.
#[test]
fn refused_tables_say_why() {
    for (name, words) in [
        ("p10", "X 5 0, refused: round 1, author 0, mark 1: the padding is 1 and ought to be 0"),
        ("p11", "X 4 0, refused: round 1, author 0, mark 1: the sum is 259 and ought to be 258"),
        ("p12", "X 6 1, refused: round 1, author 0, mark 1: the name is not above the one before it"),
        ("p13", "X 7 3, refused: round 2, author 0, mark 1: 2 references, fewer than 2f+1 = 3"),
        ("p14", "X 8 3, refused: round 2, author 0, mark 1: a reference names no record earlier in the table"),
        ("padding", "X 5 6, refused: round 2, author 2, mark 1: the padding is 7 and ought to be 0"),
        ("round_0", "X 18 5, refused: round 0, author 1, mark 1: the round is 0, and rounds start at 1"),
        ("mark_0", "X 19 9, refused: round 3, author 1, mark 0: the mark is 0, and a mark is never 0"),
        ("author_n", "X 20 7, refused: round 2, author 4, mark 1: the author is 4, and authors are 0 to 3"),
        ("all_four", "X 5 8, refused: round 0, author 9, mark 0: the padding is 255 and ought to be 0"),
    ] {
        let picture = draw(&example(name));
        assert!(picture.contains(words), "{name}");
        let tags = tags(&picture);
        let red = |tag: &&Tag| tag.name == "circle" && tag.has("class", "faulty");
        assert_eq!(tags.iter().filter(red).count(), 1, "{name}");
    }
}

#[test]
fn other_refusals_in_words() {
    for (lines, words) in [
        (
            "authors 5",
            "X 1 0, refused: 5 is not one of the author counts",
        ),
        // Of several the words are about the one that is told.
        ("authors 4\nround 0 author 9 mark 0", "rounds start at 1"),
        ("authors 4\nround 1 author 9 mark 0", "a mark is never 0"),
        ("authors 31\nround 1 author 255", "authors are 0 to 30"),
        (
            "authors 4\nround 1 author 0 refs 1",
            "a reference in round 1",
        ),
        (
            "authors 4\nround 2 author 0 refs 7",
            "a reference to author 4 or more",
        ),
    ] {
        let text = read(lines).expect("a right text");
        complete(&text, lines);
        assert!(draw(&text).contains(words), "{lines}");
    }
}

#[test]
fn equivocators_are_seen() {
    let picture = draw(&example("equivocators"));
    assert_eq!(picture.matches(">equivocates<").count(), 3);
    assert!(picture.contains("More than f equivocators: another box"));
    assert!(!draw(&example("morning")).contains("equivocates<"));
    let p9 = draw(&example("p09"));
    assert_eq!(p9.matches(">equivocates<").count(), 1);
    assert!(!p9.contains("More than f"));
    // A record twice is refused, and nobody is accused.
    let p12 = draw(&example("p12"));
    assert_eq!(p12.matches(">two in a round<").count(), 1);
    assert!(!p12.contains(">equivocates<"));
}

#[test]
fn a_title_cannot_break_the_picture() {
    let text = read("# <b> & \"it's\" ]]> \u{1}\u{FFFF}\nauthors 4\n").expect("a right text");
    complete(&text, "title");
    assert!(draw(&text).contains("&lt;b&gt; &amp; &quot;it&apos;s&quot; ]]&gt; \u{FFFD}\u{FFFD}<"));
}

/// README.md shows it.
#[test]
fn the_stored_picture_is_this_one() {
    let stored = folder().join("../docs/p07.svg");
    let stored = std::fs::read_to_string(stored).expect("docs/p07.svg");
    assert!(stored == draw(&example("p07")), "docs/p07.svg is another");
}
