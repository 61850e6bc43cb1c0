//! The text form of a table.

use second::examples::p7;
use second::generate::{input, Kind};
use second::made::vertex;
use second::record::{encode, encode_mended};
use second::rng::Rng;
use second::text::{of_input, read};

/// Over all kinds, those with damaged records among them.
#[test]
fn every_whole_table_comes_back() {
    let mut whole = 0;
    for kind in Kind::ALL {
        let seeds = if kind == Kind::Large { 2 } else { 40 };
        for seed in 0..seeds {
            let bytes = input(kind, seed);
            let Ok(text) = of_input(&bytes) else {
                assert!(bytes.len() % 138 != 1, "{kind:?} {seed}");
                continue;
            };
            // No byte at all counts as n = 0.
            let expected = if bytes.is_empty() { vec![0] } else { bytes };
            let back = read(&text).expect("its own text is read");
            assert!(back.input() == expected, "{kind:?} {seed}");
            whole += 1;
        }
    }
    assert!(whole > 1_500, "{whole}");
}

/// Bytes without any sense: every field and every entry has any value.
#[test]
fn noise_comes_back() {
    let mut rng = Rng::new(1);
    for n in 0..=255 {
        let mut bytes = vec![n];
        bytes.extend((0..138 * rng.below(4)).map(|_| rng.byte()));
        let text = of_input(&bytes).expect("whole records");
        let back = read(&text).expect("its own text is read");
        assert_eq!(back.input(), bytes, "{text}");
    }
}

#[test]
fn what_is_usual_is_left_out() {
    let mut second = vertex(2, 3, 7, &[(0, 1), (1, 258), (30, 1)]);
    second.batches = 5;
    let mut damaged = vertex(0, 0, 0, &[]);
    damaged.padding = 1;
    damaged.sum = 9;
    let records = [
        encode_mended(&vertex(1, 0, 1, &[])),
        encode_mended(&second),
        encode(&damaged),
    ];
    let expected = "\
authors 4

round 1 author 0

round 2 author 3 mark 7 batches 5 refs 0 1:258 30

round 0 author 0 mark 0 padding 1 sum 9
";
    let input = [vec![4], records.concat()].concat();
    assert_eq!(of_input(&input).as_deref(), Ok(expected));
}

/// The order of the fields, empty lines, comments and other spaces do not matter.
#[test]
fn other_ways_to_write_the_same() {
    let usual = "authors 4\nround 2 author 1 mark 1 batches 7 refs 0:1 1 2\n";
    let other = "\
# A title
  # and more of it

authors 4 # n\r
\tbatches 7   refs 0 1:1 2 author 1 # mark 1
round 2";
    let other = other.replace("# mark 1\n", "");
    let (usual, other) = (read(usual).expect("usual"), read(&other).expect("other"));
    assert_eq!(other.input(), usual.input());
    assert_eq!(usual.title, None);
    assert_eq!(other.title.as_deref(), Some("A title"));
}

#[test]
fn sums_as_they_are_said() {
    // Round 1, author 0, mark 1: the sum is 2.
    for (said, stored) in [
        ("", 2),
        ("sum +0", 2),
        ("sum +1", 3),
        ("sum -1", 1),
        ("sum -3", 65_535),
        ("sum +65535", 1),
        ("sum 1234", 1_234),
    ] {
        let text = format!("authors 4\nround 1 author 0 {said}\n");
        let table = read(&text).expect(said).table;
        assert_eq!(table[136..], u16::to_le_bytes(stored), "{said}");
    }
}

/// Each told with its line.
#[test]
fn what_is_wrong_is_told() {
    let head = "authors 4\n\n# round 1\n";
    for (line, told) in [
        ("round 1", "the record has no `author`"),
        ("author 1 refs", "the record has no `round`"),
        ("round one author 1", "`round` takes one number"),
        ("round 1 2 author 1", "`round` takes one number"),
        ("round 1 author 256", "`author`: 256 is too large"),
        (
            "round 4294967296 author 1",
            "`round`: 4294967296 is too large",
        ),
        (
            "round 1 author 1 batches 65536",
            "`batches`: 65536 is too large",
        ),
        ("round 1 author -1", "`author`: `-1` is not a number"),
        ("round +1 author 1", "`round`: `+1` is not a number"),
        ("round 1 author 1 sum +", "`sum`: a number is missing"),
        ("round 1 author 1 sum", "`sum` takes one number"),
        ("round 1 author 1 round 1", "`round` stands twice"),
        (
            "round 2 author 1 refs 0 31",
            "`refs`: 31 is above 30, the last entry",
        ),
        ("round 2 author 1 refs 0:0", "`refs`: 0:0 is no reference"),
        (
            "round 2 author 1 refs 0 0:2",
            "`refs`: author 0 stands twice",
        ),
        ("round 2 author 1 refs 0:", "`refs`: a number is missing"),
        (
            "round 2 author 1 refs 0:1:1",
            "`refs`: `1:1` is not a number",
        ),
        ("authors 4", "`authors` stands twice"),
        (
            "1 round 1 author 1",
            "`1` is no field; the fields are round, author, mark, batches, padding, sum, refs",
        ),
        (
            "Round 1 author 1",
            "`Round` is no field; the fields are round, author, mark, batches, padding, sum, refs",
        ),
    ] {
        let wrong = read(&format!("{head}{line}\n"));
        assert_eq!(wrong, Err(format!("line 4: {told}")), "{line}");
    }
}

#[test]
fn a_missing_author_count_is_told() {
    let told = "before all records stands how many authors there are, as in `authors 4`";
    let before = read("# P1\nround 1 author 0\nauthors 4\n");
    assert_eq!(before, Err(format!("line 2: {told}")));
    assert_eq!(read("# P1\n"), Err(format!("end of the text: {told}")));
    let wrong = read("authors 256");
    assert_eq!(
        wrong,
        Err("line 1: `authors`: 256 is too large".to_string())
    );
}

#[test]
fn a_part_of_a_record_has_no_text() {
    let input = [vec![4], p7().table()].concat();
    let told = "23 records and 137 bytes more: only whole records have a text";
    assert_eq!(of_input(&input[..input.len() - 1]), Err(told.to_string()));
}
