//! Number 9 is retired. It was for a round above 1,400, and no table was given it: the check
//! with that row behind 8, where it stood, answers as the check without it on all that the
//! attack has. This is run, not proved.

use crate::attack::differ;
use crate::checks::{calls_by, check_by, Right, Rows, Seen};
use second::attack::attack;
use second::examples::tallest;
use second::made::refusal;

/// With row 9, for a round above `HIGHEST`.
struct With9<const HIGHEST: u32>;

impl<const HIGHEST: u32> Rows for With9<HIGHEST> {
    fn order() -> Vec<u8> {
        [Right::order(), vec![9]].concat()
    }

    fn fails(row: u8, seen: &Seen) -> bool {
        match row {
            9 => seen.vertex.round > HIGHEST,
            _ => seen.fails(row),
        }
    }
}

/// Every family, with the row as it stood.
#[test]
fn no_family_gives_9() {
    let attack = attack(&calls_by::<With9<1_400>>());
    assert!(attack.passed() > 400_000);
    assert_eq!(attack.failed(), 0, "{attack}");
}

/// The attack would have seen it: with a bound that some table is above, cases differ. Above
/// 1,365 there is still one, which is asked with four sets of buffers, and above 1,366 none.
#[test]
fn a_lower_bound_is_seen() {
    assert!(differ(&calls_by::<With9<2>>(), &["names"]) > 0);
    assert_eq!(differ(&calls_by::<With9<1_365>>(), &["tall"]), 4);
    let table = tallest(4).table();
    assert_eq!(check_by::<With9<1_365>>(4, &table), Err(refusal(9, 4_095)));
    assert_eq!(check_by::<With9<1_366>>(4, &table), Ok(()));
}
