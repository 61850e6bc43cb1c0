//! The plain check and the plain settlement, which the benchmark uses, answer as the
//! rules do.

use second::check::check;
use second::generate::{lent, table, Kind};
use second::rng::Rng;
use second::settle::settle;
use second::{plain, plain_settle};

#[test]
fn plain_answers_as_the_rules_do() {
    let mut rng = Rng::new(11);
    for _ in 0..3_000 {
        let (kind, seed) = (Kind::draw(&mut rng), rng.draw());
        let (n, table) = table(kind, seed);
        let expected = check(n, &table);
        assert_eq!(plain::check(n, &table), expected, "{kind:?}, seed {seed}");
    }
}

#[test]
fn plain_settles_as_the_rules_do() {
    let mut rng = Rng::new(12);
    for _ in 0..3_000 {
        let (kind, seed) = (Kind::draw(&mut rng), rng.draw());
        let (n, table) = table(kind, seed);
        let mut mine = lent(n, &table, seed);
        let mut plain = mine.clone();
        let expected = settle(n, &table, &mut mine);
        let told = plain_settle::settle(n, &table, &mut plain);
        assert_eq!(told, expected, "{kind:?}, seed {seed}");
        assert_eq!(plain, mine, "{kind:?}, seed {seed}");
    }
}
