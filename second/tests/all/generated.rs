//! What must hold of every generated table.

use second::authors::quorum;
use second::check::check;
use second::generate::{bytes_of, input, lent, question, table, Kind};
use second::made::{prints, settled, Settled};
use second::program::run;
use second::record::{decode, Name, Vertex};
use second::rng::Rng;
use second::settle::{lookup, settle, Outcome};
use std::collections::BTreeMap;

/// Tables that pass, of all kinds but the largest.
fn passing_tables(seeds: u64) -> impl Iterator<Item = (Kind, u64, u8, Vec<u8>)> {
    let kinds = Kind::ALL.into_iter().filter(|&kind| kind != Kind::Large);
    kinds
        .flat_map(move |kind| (0..seeds).map(move |seed| (kind, seed)))
        .map(|(kind, seed)| {
            let (n, table) = table(kind, seed);
            (kind, seed, n, table)
        })
        .filter(|(_, _, n, table)| check(*n, table).is_ok())
}

fn vertices(table: &[u8]) -> Vec<Vertex> {
    table.chunks(138).map(decode).collect()
}

fn position_of(vertices: &[Vertex]) -> BTreeMap<Name, usize> {
    let names = vertices.iter().map(Vertex::name);
    names.enumerate().map(|(p, name)| (name, p)).collect()
}

#[test]
fn kinds_have_names_and_pass_if_they_say_so() {
    for kind in Kind::ALL {
        assert_eq!(Kind::from_name(&kind.name()), Some(kind));
    }
    assert_eq!(Kind::from_name("none"), None);
    for kind in Kind::PASSING {
        let seeds = if kind == Kind::Large { 3 } else { 200 };
        for seed in 0..seeds {
            let (n, table) = table(kind, seed);
            assert_eq!(check(n, &table), Ok(()), "{kind:?} {seed}");
        }
    }
}

#[test]
fn a_seed_fixes_everything() {
    for kind in Kind::ALL {
        let mut different = false;
        for seed in 0..5 {
            assert_eq!(input(kind, seed), input(kind, seed));
            different |= input(kind, seed) != input(kind, seed + 1);
        }
        assert!(different || kind == Kind::EmptyInput, "{kind:?}");
    }
}

/// The numbers themselves, so that a change of the generator is seen.
#[test]
fn the_generator_of_numbers_is_the_known_one() {
    let mut rng = Rng::new(0);
    assert_eq!(rng.draw(), 0xE220_A839_7B1D_CDAF);
    assert_eq!(rng.draw(), 0x6E78_9E6A_A1B9_65F4);
    assert_eq!(rng.draw(), 0x06C4_5D18_8009_454F);
}

/// Each round below a record's own has 2f+1 records or more, which all come before it. This is
/// what bounds rounds.
#[test]
fn rounds_stand_on_2f_and_1_records_each() {
    for (kind, seed, n, table) in passing_tables(60) {
        for (position, vertex) in vertices(&table).iter().enumerate() {
            let below = vertex.round as usize - 1;
            assert!(below * quorum(n) <= position, "{kind:?} {seed} {position}");
        }
    }
}

/// Nothing is written twice, all that a written vertex references is written
/// before it, and the taken bytes are those of the order.
#[test]
fn the_order_is_closed_and_without_repeats() {
    for (kind, seed, n, table) in passing_tables(60) {
        let given = settled(n, &table);
        let vertices = vertices(&table);
        let position_of = position_of(&vertices);
        let mut taken = vec![0; vertices.len()];
        for &p in given.written() {
            let vertex = &vertices[p as usize];
            for name in vertex.referenced() {
                assert_eq!(taken[position_of[&name]], 1, "{kind:?} {seed}");
            }
            assert_eq!(taken[p as usize], 0, "{kind:?} {seed}: twice");
            taken[p as usize] = 1;
        }
        assert_eq!(given.taken, taken, "{kind:?} {seed}");
        let ones = given.taken.iter().filter(|&&byte| byte == 1).count();
        assert_eq!(given.counts().written, ones);
    }
}

/// Cells, first undecided round and the leaders among the written.
#[test]
fn cells_are_of_leaders_and_fit_the_order() {
    for (kind, seed, n, table) in passing_tables(60) {
        let given = settled(n, &table);
        let vertices = vertices(&table);
        let counts = given.counts();
        let cells = &given.cells[..counts.highest_round as usize];
        for (round, &cell) in (1..).zip(cells) {
            if cell >= 2 {
                let vertex = &vertices[cell as usize - 2];
                assert_eq!(vertex.round, round);
                assert_eq!(u32::from(vertex.author), (round - 1) % u32::from(n));
                let written = given.taken[cell as usize - 2] == 1;
                assert!(written || round > counts.first_undecided, "{kind:?} {seed}");
            }
        }
        let open = cells.iter().position(|&cell| cell == 0);
        let first = open.map_or(1, |at| at as u32 + 1);
        assert_eq!(counts.first_undecided, first, "{kind:?} {seed}");
        assert_eq!(cells.last().copied().unwrap_or(0), 0);
    }
}

/// Marks only tell vertices apart and order them: other marks in the same order
/// give the same positions everywhere.
#[test]
fn marks_may_be_renamed_in_order() {
    for (kind, seed, n, table) in passing_tables(30) {
        let mut vertices = vertices(&table);
        let mut renamed = BTreeMap::new();
        for vertex in &vertices {
            // Spread so that bytes fill and carry.
            let mark = 200 + 211 * renamed.len() as u32;
            renamed.insert(vertex.name(), mark);
        }
        for vertex in &mut vertices {
            vertex.mark = renamed[&vertex.name()];
            for (author, mark) in (0..).zip(&mut vertex.refs) {
                if *mark != 0 {
                    let round = vertex.round - 1;
                    *mark = renamed[&Name {
                        round,
                        author,
                        mark: *mark,
                    }];
                }
            }
            vertex.batches ^= 0x5A5A;
        }
        assert_eq!(
            settled(n, &table),
            settled(n, &bytes_of(&vertices)),
            "{kind:?} {seed}"
        );
    }
}

/// With at most f equivocators, the beginning of a table decides alike what both
/// decide, and one written order begins the other.
#[test]
fn the_beginning_of_a_table_agrees_with_the_whole() {
    for (kind, seed, n, table) in passing_tables(40) {
        let whole = settled(n, &table);
        if whole.counts().equivocators > (usize::from(n) - 1) / 3 {
            continue;
        }
        let records = table.len() / 138;
        for kept in (0..records).step_by(1 + records / 12) {
            let part = settled(n, &table[..kept * 138]);
            assert_agree(&part, &whole, &format!("{kind:?} {seed} {kept}"));
        }
    }
}

fn assert_agree(part: &Settled, whole: &Settled, case: &str) {
    let rounds = part.counts().highest_round as usize;
    for (mine, theirs) in part.cells[..rounds].iter().zip(&whole.cells) {
        assert!(*mine == 0 || *theirs == 0 || mine == theirs, "{case}");
    }
    let (mine, theirs) = (part.written(), whole.written());
    let both = mine.len().min(theirs.len());
    assert_eq!(mine[..both], theirs[..both], "{case}");
}

/// Settled or refused, only what the settlement gives is changed.
#[test]
fn lent_memory_is_kept_where_it_should_be() {
    for kind in Kind::ALL {
        let seeds = if kind == Kind::Large { 2 } else { 60 };
        for seed in 0..seeds {
            let (n, table) = table(kind, seed);
            let before = lent(n, &table, seed);
            let mut after = before.clone();
            let outcome = settle(n, &table, &mut after);
            if let Outcome::Settled(counts) = outcome {
                let whole = settled(n, &table);
                let rounds = counts.highest_round as usize;
                assert_eq!(after.cells[..rounds], whole.cells[..rounds]);
                assert_eq!(after.order[..counts.written], *whole.written());
                assert_eq!(after.taken[..counts.records], whole.taken);
                after.cells[..rounds].copy_from_slice(&before.cells[..rounds]);
                let (written, records) = (counts.written, counts.records);
                after.order[..written].copy_from_slice(&before.order[..written]);
                after.taken[..records].copy_from_slice(&before.taken[..records]);
            }
            assert_eq!(after, before, "{kind:?} {seed}");
        }
    }
}

/// The lookup finds a name exactly where a record has it.
#[test]
fn lookups_fit_the_records() {
    for (kind, seed, n, table) in passing_tables(60) {
        let name = question(&table, seed);
        let expected = position_of(&vertices(&table)).get(&name).map(|p| 138 * p);
        let found = lookup(n, &table, name);
        assert_eq!(found.ok(), expected, "{kind:?} {seed}");
    }
}

/// What the program prints is what the calls give.
#[test]
fn the_program_prints_what_the_calls_give() {
    for kind in Kind::ALL {
        for seed in 0..20 {
            let input = input(kind, seed);
            let printed = String::from_utf8(run(&input)).unwrap();
            if input.len() > 65_413 {
                assert_eq!(printed, "X 12 0\n");
                continue;
            }
            let (n, table) = input.split_first().map_or((0, &[][..]), |(n, t)| (*n, t));
            assert_eq!(printed, prints(n, table));
            match check(n, table) {
                Err(refused) => {
                    let line = format!("X {} {}\n", refused.number, refused.position);
                    assert_eq!(printed, line, "{kind:?} {seed}");
                }
                Ok(()) => assert_eq!(printed, lines(n, table), "{kind:?} {seed}"),
            }
        }
    }
}

fn lines(n: u8, table: &[u8]) -> String {
    let given = settled(n, table);
    let vertices = vertices(table);
    let counts = given.counts();
    let mut lines = vec![format!(
        "S {} {} {} {} {}",
        counts.records,
        counts.highest_round,
        counts.first_undecided,
        counts.written,
        counts.equivocators
    )];
    for (round, cell) in (1..=counts.highest_round).zip(&given.cells) {
        lines.push(match cell {
            0 => format!("R {round} undecided"),
            1 => format!("R {round} skip"),
            cell => {
                let leader = &vertices[*cell as usize - 2];
                format!("R {round} commit {} {}", leader.author, leader.mark)
            }
        });
    }
    for &p in given.written() {
        let vertex = &vertices[p as usize];
        lines.push(format!(
            "V {} {} {}",
            vertex.round, vertex.author, vertex.mark
        ));
    }
    lines.join("\n") + "\n"
}
