//! The comparison with other calls: it finds nothing where there is nothing, and every
//! kind of wrong answer where there is one.

use crate::wrong::{BEFORE, KEPT, POSITION, REFUSED, UNNAMED, WRITTEN};
use second::answers::{Calls, RULES};
use second::attack::attack_by;
use second::compare::compare;

/// How many cases differ in the families with these words in their names.
pub fn differ(calls: &Calls, words: &[&str]) -> u64 {
    let wanted = |name: &str| words.iter().any(|&word| name.contains(word));
    let attack = attack_by(calls, wanted);
    assert!(attack.passed() + attack.failed() > 0);
    attack.failed()
}

#[test]
fn the_rules_agree_with_themselves() {
    assert_eq!(differ(&RULES, &["length", "fields", "names"]), 0);
    assert_eq!(compare(&RULES, 300, 1).differed(), 0);
}

#[test]
fn every_wrong_answer_is_found() {
    assert!(differ(&POSITION, &["fields"]) > 0);
    assert!(differ(&BEFORE, &["names"]) > 0);
    assert!(differ(&UNNAMED, &["fields"]) > 0);
    assert!(differ(&WRITTEN, &["names"]) > 0);
    assert!(differ(&KEPT, &["names"]) > 0);
    assert!(differ(&REFUSED, &["buffers"]) > 0);
    for calls in [POSITION, BEFORE, UNNAMED, KEPT] {
        assert!(compare(&calls, 300, 1).differed() > 0);
    }
}

/// A small table is shown, and the last line counts.
#[test]
fn a_small_table_is_shown() {
    let attack = attack_by(&POSITION, |name| name.contains("fields"));
    let text = attack.to_string();
    // One record alone can reference nothing.
    let shown = "DIFFERS, made small:
# check: rules Answer { number: 8, position: 0 }, asked Answer { number: 8, position: 1 }
authors 4

round 2 author ";
    assert_eq!(text.matches("DIFFERS").count(), 1);
    assert!(text.contains(shown), "{text}");
    assert_eq!(text.matches("\nround ").count(), 1, "{text}");
    let last = format!("{} passed, {} failed\n", attack.passed(), attack.failed());
    assert!(text.ends_with(&last));
}
