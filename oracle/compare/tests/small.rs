//! Every call agrees with the Rust on few cases, and these give each of its refusals; the updates do
//! around level 31 too, `is_valid_range` on numbers, the strict calls on parameterless functions, and
//! the calls over a table on simple types.

use compare::call::{Gives, Options};
use compare::calls::CALLS;
use compare::run::run;
use compare::{decimals, levels, strict, table};

const FEW: Options = Options {
    length: 1,
    alphabet_length: 2,
    pair_length: 2,
    count: 100,
    pairs: 200,
    seed: 5,
};

#[test]
fn every_call_agrees_on_few_cases() {
    for call in CALLS {
        let tally = run(&call, &FEW);
        assert_eq!(tally.smallest, None, "{tally}");
        assert!(tally.accepted > 0, "{tally}");
        assert!(tally.refused.values().all(|&count| count > 0), "{tally}");
        let may_be_none = matches!(call.gives, Gives::Part | Gives::Command);
        assert_eq!(tally.none > 0, may_be_none, "{tally}");
        assert_ne!(tally.decimals, Some(0), "{tally}");
    }
}

#[test]
fn the_updates_agree_around_level_31_and_meet_every_class() {
    let mut calls = 0;
    for levels in levels::run(&FEW) {
        assert_eq!(levels.tally.smallest, None, "{levels}");
        assert!(levels.missing.is_empty(), "{:?}", levels.missing);
        calls += 1;
    }
    assert_eq!(calls, 8);
}

#[test]
fn ranges_of_numbers_agree_and_meet_every_class() {
    let decimals = decimals::run(&FEW);
    assert_eq!(decimals.tally.smallest, None, "{decimals}");
    assert!(decimals.missing.is_empty(), "{:?}", decimals.missing);
}

#[test]
fn the_strict_calls_agree_and_meet_every_class() {
    let mut calls = 0;
    for strict in strict::run(&FEW) {
        assert_eq!(strict.tally.smallest, None, "{strict}");
        assert!(strict.missing.is_empty(), "{:?}", strict.missing);
        calls += 1;
    }
    assert_eq!(calls, 5);
}

#[test]
fn the_calls_over_a_table_agree_and_meet_every_class() {
    let mut calls = 0;
    for table in table::run(&FEW) {
        assert_eq!(table.tally.smallest, None, "{table}");
        assert!(table.missing.is_empty(), "{:?}", table.missing);
        calls += 1;
    }
    assert_eq!(calls, 6);
}
