//! Document 02's request K9, sentence by sentence, and the laws of the bounds over tables.

use dsntk_feel::FeelType;
use feel_cases::{
    Move, Parts, Random, TABLE_FAULTS, TABLE_SHAPES, TableFault, Tree, ValueTree, any_table,
    faulty_table, fixed_table, near, near_leaves, near_simple, random_order, shaped_table,
    table_has, table_with, with_parameterless,
};
use feel_form::{
    Reading, Table, calls, common_subtype, common_supertype, conforms, least_type, read_type,
    read_value, reduced, value_conforms,
};

const MOVES: [Move; 3] = [Move::Up, Move::Down, Move::Free];

/// The bytes of hexadecimal digits; blanks are free between bytes.
fn bytes(hex: &str) -> Vec<u8> {
    let digits: Vec<char> = hex.chars().filter(|digit| *digit != ' ').collect();
    let byte = |two: &[char]| String::from_iter(two);
    let parse = |byte: String| u8::from_str_radix(&byte, 16).expect("hexadecimal digits");
    digits.chunks(2).map(byte).map(parse).collect()
}

/// A date is a date and time; a time is a duration of days and time, and that one is a number.
fn members() -> Vec<u8> {
    table_with(&[(4, 6), (5, 7), (7, 2)])
}

fn types(a: &str, b: &str) -> bool {
    calls::table_is_conformant(&members(), &bytes(a), &bytes(b)).expect("accepted")
}

fn values(v: &str, t: &str) -> bool {
    calls::table_value_is_conformant(&members(), &bytes(v), &bytes(t)).expect("accepted")
}

type Bound = fn(&[u8], &[u8], &[u8], usize, usize) -> Result<Vec<u8>, u8>;

/// The bound is this one, in either order of the arguments.
fn assert_bound(bound: Bound, a: &str, b: &str, answer: &str) {
    for (a, b) in [(a, b), (b, a)] {
        let (a, b) = (bytes(a), bytes(b));
        let sum = a.len() + b.len();
        let found = bound(&members(), &a, &b, sum, sum);
        assert_eq!(found, Ok(bytes(answer)), "{a:02X?} {b:02X?}");
    }
}

fn least(v: &str) -> Result<Vec<u8>, u8> {
    let v = bytes(v);
    calls::table_value_least_type(&members(), &v, 4 * v.len(), v.len())
}

#[test]
fn a_table_has_a_hundred_bytes_of_0_or_1() {
    let fixed = fixed_table();
    assert_eq!(calls::table_check(&fixed), Ok(true));
    assert_eq!(Table::read(&fixed), Ok(Table::FIXED));
    assert_eq!(Table::FIXED.bytes(), fixed);
    for length in [0, 1, 99, 101, 200, 16_385] {
        let mut other = fixed.clone();
        other.resize(length, 1);
        assert_eq!(calls::table_check(&other), Err(26), "{length}");
    }
    for place in 0..100 {
        for byte in [2, 3, 0x80, 0xFF] {
            let mut other = fixed.clone();
            other[place] = byte;
            assert_eq!(calls::table_check(&other), Err(26));
        }
    }
}

#[test]
fn an_order_is_wanted() {
    let changed = |places: &[usize]| {
        let mut table = fixed_table();
        places.iter().for_each(|place| table[*place] ^= 1);
        calls::table_check(&table)
    };
    for t in 0..10 {
        assert_eq!(changed(&[11 * t]), Err(27), "not to itself");
        assert_eq!(changed(&[90 + t]), Err(27), "not from Null");
        assert_eq!(changed(&[10 * t]), Err(27), "not to Any");
    }
    assert_eq!(changed(&[46]), Ok(true));
    assert_eq!(changed(&[46, 64]), Err(27), "mutual");
    assert_eq!(changed(&[4]), Err(27), "Any to Date");
    assert_eq!(changed(&[49]), Err(27), "Date to Null");
    assert_eq!(changed(&[46, 62]), Err(27), "not carried on");
    assert_eq!(changed(&[46, 62, 42]), Ok(true));
}

#[test]
fn every_two_types_have_one_least_common_supertype() {
    let two = [(1, 3), (1, 4), (2, 3), (2, 4)];
    assert_eq!(calls::table_check(&table_with(&two)), Err(28));
    let with_one_above = [&two[..], &[(3, 5), (4, 5)]].concat();
    assert_eq!(calls::table_check(&table_with(&with_one_above)), Err(28));
    let between = [(1, 5), (2, 5), (5, 3), (5, 4)];
    assert_eq!(calls::table_check(&table_with(&between)), Ok(true));
    // The order is asked about first.
    let mut table = table_with(&two);
    table[77] = 0;
    assert_eq!(calls::table_check(&table), Err(27));
    table[0] = 7;
    assert_eq!(calls::table_check(&table), Err(26));
}

#[test]
fn conformance_follows_the_table() {
    assert!(types("24", "26") && !types("26", "24"));
    assert!(types("25", "22") && types("25", "27") && types("27", "22"));
    assert!(!types("24", "22") && types("24", "20") && types("29", "24"));
    assert!(types("2A 24", "2A 26") && types("2B 24", "2B 26"));
    assert!(types("2C 0100 0100 24", "2C 0100 0100 26"));
    assert!(types("2D 01 26 24", "2D 01 24 26") && !types("2D 01 24 24", "2D 01 26 26"));
    // The result of a parameterless function does not count.
    assert!(types("2D 00 26", "2D 00 24"));
    // Other types meet a simple one only at Any, and Null only from below.
    for parent in ["2A 24", "2B 24", "2C 0000", "2D 00 24"] {
        assert!(types(parent, "20") && types("29", parent));
        for simple in ["21", "22", "24", "26", "29"] {
            assert!(!types(parent, simple));
            assert!(simple == "29" || !types(simple, parent));
        }
    }
}

#[test]
fn values_conform_as_their_types() {
    let date = "04 0000000000000000";
    assert!(values(date, "24") && values(date, "26") && values(date, "20"));
    assert!(!values(date, "22") && !values(date, "29"));
    assert!(!values("06 0000000000000000", "24"));
    assert!(values(&format!("0A 0200 {date} 00 00"), "2A 26"));
    assert!(values(&format!("09 0000 {date} 00 00"), "2B 26"));
    assert!(values(&format!("0B 0100 0100 {date}"), "2C 0100 0100 26"));
    // A function definition: its parameters are not turned, and its result always counts.
    assert!(values("0C 01 0000 24 0000 24", "2D 01 26 26"));
    assert!(!values("0C 01 0000 24 0000 26", "2D 01 24 26"));
    assert!(values("0C 00 0000 24", "2D 00 26"));
    assert!(!values("0C 00 0000 26", "2D 00 24"));
    assert!(values("0C 00 0000 2D 00 26", "2D 00 2D 00 24"));
    for other in ["0D 00", "0E 24", "0F"] {
        assert!(values(other, "20") && !values(other, "26") && !values(other, "29"));
    }
}

#[test]
fn bounds_follow_the_table() {
    let supertype: Bound = calls::table_common_supertype;
    assert_bound(supertype, "24", "26", "26");
    assert_bound(supertype, "25", "22", "22");
    assert_bound(supertype, "24", "25", "20");
    assert_bound(supertype, "29", "24", "24");
    assert_bound(supertype, "2A 24", "2A 26", "2A 26");
    assert_bound(supertype, "2A 24", "26", "20");
    assert_bound(supertype, "2D 01 24 24", "2D 01 26 26", "2D 01 24 26");
    assert_bound(supertype, "2D 00 24", "2D 00 24", "2D 00 20");
    assert_bound(supertype, "29", "2A 2D 00 22", "2A 2D 00 20");
    let subtype: Bound = calls::table_common_subtype;
    assert_bound(subtype, "24", "26", "24");
    assert_bound(subtype, "25", "22", "25");
    assert_bound(subtype, "24", "25", "29");
    assert_bound(subtype, "20", "24", "24");
    assert_bound(subtype, "2A 24", "26", "29");
    assert_bound(subtype, "2D 01 24 24", "2D 01 26 26", "2D 01 26 24");
    assert_bound(
        subtype,
        "2C 0100 0100 24",
        "2C 0200 0100 26 0200 25",
        "2C 0200 0100 24 0200 25",
    );
}

#[test]
fn a_list_has_the_supertype_of_its_items() {
    let (date, time) = ("04 0000000000000000", "06 0000000000000000");
    assert_eq!(least(&format!("0A 0200 {date} {time}")), Ok(bytes("2A 26")));
    assert_eq!(least(&format!("0A 0200 {time} {date}")), Ok(bytes("2A 26")));
    assert_eq!(least(&format!("09 0000 {date} {time}")), Ok(bytes("2B 26")));
    assert_eq!(
        least(&format!("0A 0300 00 00 {date} 01 01")),
        Ok(bytes("2A 20"))
    );
    for other in ["0C 00 0000 22", "0D 00", "0E 22", "0F"] {
        assert_eq!(least(other), Err(13));
        assert_eq!(least(&format!("0A 0200 {date} {other}")), Err(13));
    }
}

#[test]
fn refusals_come_in_their_order() {
    let bad = fixed_table()[..99].to_vec();
    let good = fixed_table();
    for call in [calls::table_common_supertype, calls::table_common_subtype] {
        assert_eq!(call(&bad, &[], &[0x2E], 0, 0), Err(26));
        assert_eq!(call(&good, &[], &[0x2E], 0, 0), Err(6));
        assert_eq!(call(&good, &[0x22], &[0x2E], 0, 0), Err(7));
        assert_eq!(call(&good, &[0x22], &[0x22], 1, 0), Err(14));
        assert_eq!(call(&good, &[0x22], &[0x22], 2, 0), Err(18));
        assert_eq!(call(&good, &[0x22], &[0x22], 2, 1), Ok(vec![0x22]));
    }
    assert_eq!(calls::table_is_conformant(&bad, &[], &[]), Err(26));
    assert_eq!(calls::table_is_conformant(&good, &[0x22], &[]), Err(6));
    assert_eq!(calls::table_value_is_conformant(&bad, &[], &[]), Err(26));
    assert_eq!(calls::table_value_is_conformant(&good, &[], &[]), Err(1));
    let call = calls::table_value_least_type;
    assert_eq!(call(&bad, &[], 0, 0), Err(26));
    assert_eq!(call(&good, &[], 0, 0), Err(1));
    assert_eq!(call(&good, &[0x0F], 0, 0), Err(13));
    assert_eq!(call(&good, &[0x01, 1], 7, 0), Err(14));
    assert_eq!(call(&good, &[0x01, 1], 8, 0), Err(18));
    assert_eq!(call(&good, &[0x01, 1], 8, 1), Ok(vec![0x21]));
}

#[test]
fn generated_tables_are_what_they_are_made_for() {
    let mut random = Random::new(1);
    for _ in 0..300 {
        for shape in TABLE_SHAPES {
            let table = shaped_table(shape, &mut random);
            assert_eq!(calls::table_check(&table), Ok(true), "{shape:?} {table:?}");
        }
        for fault in TABLE_FAULTS {
            let table = faulty_table(fault, &mut random);
            let refused = calls::table_check(&table);
            assert_eq!(refused, Err(fault.refusal()), "{fault:?} {table:?}");
        }
    }
    let mut counts = [0; 2];
    for _ in 0..2_000 {
        match calls::table_check(&random_order(&mut random)) {
            Ok(_) => counts[0] += 1,
            Err(28) => counts[1] += 1,
            other => panic!("{other:?}"),
        }
    }
    assert!(counts.iter().all(|count| *count > 200), "{counts:?}");
    assert_eq!(TableFault::TwoAbove.refusal(), 28);
}

fn feel_type(tree: &Tree) -> FeelType {
    read_type(&tree.bytes()).expect("accepted").0
}

/// A random type, one near it, and one near it by the table.
fn family(table: &[u8], random: &mut Random) -> [FeelType; 3] {
    let tree = Tree::random(5, 1 + random.below(12), random);
    let tree = match random.below(3) {
        0 => with_parameterless(tree, random),
        _ => tree,
    };
    let how = random.pick(&MOVES);
    let other = near_simple(&tree, table, how, random);
    let third = near(&other, random.pick(&MOVES), random);
    [tree, other, third].map(|tree| feel_type(&tree))
}

#[test]
fn over_the_fixed_table_all_is_as_the_published_rust_has_it() {
    let mut random = Random::new(2);
    let reading = Reading::Table(Table::FIXED);
    let ported = Reading::Ported;
    let fixed = fixed_table();
    for _ in 0..20_000 {
        let [a, b, c] = family(&fixed, &mut random);
        for (x, y) in [(&a, &b), (&b, &a), (&a, &c), (&c, &b)] {
            assert_eq!(conforms(x, y, reading), x.is_conformant(y));
            assert_eq!(
                common_supertype(x, y, reading),
                common_supertype(x, y, ported)
            );
            assert_eq!(common_subtype(x, y, reading), common_subtype(x, y, ported));
        }
        let v = ValueTree::random(5, 1 + random.below(10), Parts::All, &mut random);
        let shape = feel_type(&v.shape(&mut random));
        let (v, _) = read_value(&v.bytes()).expect("accepted");
        for t in [&a, &shape] {
            assert_eq!(value_conforms(&v, t, reading), v.is_conformant(t));
        }
        assert_eq!(least_type(&v, reading), least_type(&v, ported));
    }
}

#[test]
fn the_vote_holds_over_tables() {
    let mut random = Random::new(3);
    let mut mutual = 0;
    let mut below = 0;
    for _ in 0..20_000 {
        let bytes = any_table(&mut random);
        let table = Table::read(&bytes).expect("it loads");
        let reading = Reading::Table(table);
        let to = |a: &FeelType, b: &FeelType| conforms(a, b, reading);
        let [a, b, c] = family(&bytes, &mut random);
        let above = common_supertype(&a, &b, reading);
        let under = common_subtype(&a, &b, reading);
        assert!(to(&a, &above) && to(&b, &above) && to(&under, &a) && to(&under, &b));
        for third in [&a, &b, &c] {
            assert_eq!(to(&above, third), to(&a, third) && to(&b, third));
            assert_eq!(to(third, &under), to(third, &a) && to(third, &b));
        }
        let both = to(&a, &b) && to(&b, &a);
        assert_eq!(both, reduced(&a) == reduced(&b));
        mutual += usize::from(both);
        below += usize::from(to(&a, &b) && !a.is_conformant(&b));
        let tree = ValueTree::random(5, 1 + random.below(10), Parts::Data, &mut random);
        let v = near_leaves(&tree, &bytes, Move::Free, &mut random);
        let shape = near_simple(&v.shape(&mut random), &bytes, Move::Up, &mut random);
        let (v, _) = read_value(&v.bytes()).expect("accepted");
        let least = least_type(&v, reading).expect("data");
        for t in [&a, &least, &feel_type(&shape)] {
            assert_eq!(value_conforms(&v, t, reading), to(&least, t));
        }
    }
    assert!(mutual > 1_000 && below > 1_000, "{mutual} {below}");
}

#[test]
fn the_bounds_of_simple_types_are_a_lattice() {
    let mut random = Random::new(4);
    let simple = |t: u8| feel_type(&Tree::Simple(t));
    for _ in 0..200 {
        let bytes = any_table(&mut random);
        let reading = Reading::Table(Table::read(&bytes).expect("it loads"));
        let join = |a: &FeelType, b: &FeelType| common_supertype(a, b, reading);
        let meet = |a: &FeelType, b: &FeelType| common_subtype(a, b, reading);
        let all: Vec<FeelType> = (0x20..0x2A).map(simple).collect();
        for (x, a) in (0x20..).zip(&all) {
            for (y, b) in (0x20..).zip(&all) {
                assert_eq!(conforms(a, b, reading), table_has(&bytes, x, y));
                assert_eq!(join(a, b), join(b, a));
                assert_eq!(meet(a, b), meet(b, a));
                assert_eq!(join(a, &meet(a, b)), *a);
                assert_eq!(meet(a, &join(a, b)), *a);
                assert_eq!(join(a, b) == *b, table_has(&bytes, x, y));
                assert_eq!(meet(a, b) == *a, table_has(&bytes, x, y));
                for c in &all {
                    assert_eq!(join(&join(a, b), c), join(a, &join(b, c)));
                    assert_eq!(meet(&meet(a, b), c), meet(a, &meet(b, c)));
                }
            }
        }
    }
}
