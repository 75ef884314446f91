//! The cases of the calls that retrieve or coerce a value, and of the small questions on values, on
//! interval bytes and on built-in functions.

use crate::call::{Case, EachCase, Options};
use crate::type_cases::{BUFFERS_EACH, EachTwo, FOUR, rooms, short_types, tiny_types};
use crate::value_cases::{
    FEW, LEAVES, damaged_pair, each_ends, each_parent, is_quick, leaves, near_types, one_in,
    own_types, refused_pairs, refused_values, step,
};
use feel_cases::{
    Each, Kind, Move, Parts, Random, Tree, ValueTree, decimal, each_chain, each_damage,
    each_data_chain, each_decimal, each_definition, each_long, each_string, long_data,
    long_records, near, near_value, small_types, small_values,
};
use feel_form::{MAX_LENGTH, MAX_VALUE_LEVEL};

/// The head of a list with one item.
const ONE: &[u8] = &[0x0A, 1, 0];

/// A call over two records with room: its bytes, or the refusal.
type Build = fn(&[u8], &[u8], usize) -> Result<Vec<u8>, u8>;

/// A value and a type.
struct Pair<'a> {
    v: &'a [u8],
    t: &'a [u8],
    /// Whether the theorems are judged.
    judged: bool,
    /// Whether every length of the output around the need is tried; else sometimes.
    every_room: bool,
}

/// Receives the pairs one after the other.
type EachPair<'a> = dyn FnMut(Pair) + 'a;

/// Cases of a type, a value and an output.
pub fn type_and_value(call: Build, options: &Options, each: &mut EachCase) {
    each_pair(options, &mut with_rooms(call, |v, t| [t, v], each));
}

/// Cases of a value, a type and an output.
pub fn value_and_type(call: Build, options: &Options, each: &mut EachCase) {
    each_pair(options, &mut with_rooms(call, |v, t| [v, t], each));
}

/// The pair with an output that is long enough; where it is wanted, and sometimes, with one of each
/// length around the need, seldom where a record is not read.
fn with_rooms<'a>(
    call: Build,
    order: for<'b> fn(&'b [u8], &'b [u8]) -> [&'b [u8]; 2],
    each: &'a mut EachCase,
) -> impl FnMut(Pair) + 'a {
    let mut count = 0;
    move |pair| {
        let args = order(pair.v, pair.t);
        let case = Case {
            args: &args,
            others: pair.judged.then_some(&[]),
            output: pair.v.len() + ONE.len(),
            ..Case::default()
        };
        each(case);
        count += 1;
        if pair.every_room || count % BUFFERS_EACH == 0 {
            let answer = call(args[0], args[1], usize::MAX);
            let unread = matches!(answer, Err(1..=10));
            if unread && count % (16 * BUFFERS_EACH) > 0 {
                return;
            }
            let need = answer.map_or(1, |answer| answer.len());
            for output in rooms(need, case.output) {
                each(Case {
                    others: None,
                    output,
                    ..case
                });
            }
        }
    }
}

fn each_pair(options: &Options, each: &mut EachPair) {
    let mut judged = |v: &[u8], t: &[u8]| {
        each(Pair {
            v,
            t,
            judged: true,
            every_room: false,
        })
    };
    each_small(options, &mut judged);
    each_nested(&mut judged);
    each_count(&mut judged);
    each_null(&mut judged);
    each_names(&mut judged);
    each_built_in(options, &mut judged);
    each_definition(4 * step(options), &mut judged);
    each_ends(&mut |v| {
        for t in small_types(2, &[0x20, 0x21, 0x23, 0x29], &[]) {
            judged(v, &t);
        }
    });
    each_limit(options, each);
    let mut pass = |v: &[u8], t: &[u8], others: Option<&[&[u8]]>| {
        each(Pair {
            v,
            t,
            judged: others.is_some(),
            every_room: false,
        })
    };
    refused_pairs(options, &mut pass);
    let mut random = Random::new(options.seed);
    for number in 0..options.pairs / 12 {
        let parts = if number % 2 == 0 {
            Parts::All
        } else {
            Parts::Data
        };
        random_pairs(parts, &mut random, &mut pass);
    }
    for _ in 0..options.count / 200 {
        damaged_pair(&mut random, &mut pass);
    }
}

/// All small values beside few types, smaller ones beside all short types; leaves of every kind
/// with each of their parents.
fn each_small(options: &Options, each: &mut dyn FnMut(&[u8], &[u8])) {
    let pool = tiny_types();
    for v in small_values(options.pair_length, &LEAVES, &[0, 1]) {
        pool.iter().for_each(|t| each(&v, t));
    }
    let short = short_types();
    for v in small_values(2, &LEAVES, &[0, 1]) {
        short.iter().for_each(|t| each(&v, t));
    }
    let mut taken = one_in(if is_quick(options) { FEW } else { 1 });
    for leaf in leaves() {
        for t in pool.iter().filter(|_| taken()) {
            each_parent(&leaf, t, each);
        }
    }
}

/// One-item lists inside each other, beside lists of as many, fewer and more, of the types that the
/// innermost value has and of others.
fn each_nested(each: &mut dyn FnMut(&[u8], &[u8])) {
    let mut inner = small_values(2, &LEAVES, &[0, 1]);
    inner.extend(leaves().into_iter().filter(|v| v.len() < 6));
    for v in inner {
        let mut types = own_types(&v);
        types.extend([vec![0x20], vec![0x21], vec![0x29], vec![0x2C, 0, 0]]);
        types.push(vec![0x2D, 1, 0x22, 0x22]);
        for lists in 0..5 {
            let v = [&ONE.repeat(lists), &v[..]].concat();
            for t in &types {
                for of_lists in 0..5 {
                    each(&v, &[&[0x2A].repeat(of_lists), &t[..]].concat());
                }
            }
        }
    }
}

/// Lists of no, one, two and many items, whose counts have equal low or high bytes.
fn each_count(each: &mut dyn FnMut(&[u8], &[u8])) {
    let inner: [&[u8]; 4] = [&[0x20], &[0x21], &[0x29], &[0x2C, 0, 0]];
    for count in [0u16, 1, 2, 0x00FF, 0x0100, 0x0101, 0x0201] {
        for item in [&[0x00, 1], &[0x01, 1]] {
            let items = item.repeat(count.into());
            let v = [&[0x0A], &count.to_le_bytes()[..], &items].concat();
            for t in inner {
                for of_lists in 0..3 {
                    each(&v, &[&[0x2A].repeat(of_lists), t].concat());
                }
            }
        }
    }
}

/// Null with every trace: alone, in lists, contexts and ranges, deeper inside, and beside values;
/// beside each small type, and lists, ranges and contexts of it.
fn each_null(each: &mut dyn FnMut(&[u8], &[u8])) {
    let frames: [(&[u8], &[u8]); 12] = [
        (&[], &[]),
        (ONE, &[]),
        (&[0x0A, 2, 0], &[0x00, 3]),
        (&[0x0A, 2, 0, 0x01, 1], &[]),
        (&[0x0A, 1, 0, 0x0A, 1, 0], &[]),
        (&[0x0A, 2, 0, 0x0A, 0, 0, 0x0A, 1, 0], &[]),
        (&[0x0B, 1, 0, 1, 0], &[]),
        (&[0x0B, 2, 0, 0, 0, 0x00, 2, 1, 0], &[]),
        (&[0x0B, 1, 0, 1, 0, 0x0A, 1, 0], &[]),
        (&[0x0A, 1, 0, 0x0B, 1, 0, 1, 0], &[]),
        (&[0x09, 0, 1], &[0x00, 1]),
        (&[0x0A, 1, 0, 0x09, 0, 1], &[0x01, 1]),
    ];
    let of: [&[u8]; 7] = [
        &[],
        &[0x2A],
        &[0x2B],
        &[0x2C, 1, 0, 1, 0],
        &[0x2A, 0x2A],
        &[0x2A, 0x2C, 1, 0, 1, 0],
        &[0x2C, 1, 0, 1, 0, 0x2A],
    ];
    let pool = tiny_types();
    for trace in 0..4 {
        for (before, after) in frames {
            let v = [before, &[0x00, trace], after].concat();
            for t in &pool {
                for before in of {
                    each(&v, &[before, t].concat());
                }
            }
        }
    }
}

/// Contexts with each choice of four names beside types with each choice of them; the types agree,
/// but for one or none. Both alone, in a list, in a context.
fn each_names(each: &mut dyn FnMut(&[u8], &[u8])) {
    const NAMES: [u16; 4] = [0, 1, 0x00FF, 0x0100];
    let chosen = |choice: usize| (0..4).filter(move |place| choice >> place & 1 == 1);
    let context = |command: u8, choice: usize, child: &dyn Fn(usize) -> Vec<u8>| {
        let count = chosen(choice).count() as u8;
        let entry = |place: usize| [&NAMES[place].to_le_bytes(), &child(place)[..]].concat();
        let entries: Vec<Vec<u8>> = chosen(choice).map(entry).collect();
        [&[command, count, 0], &entries.concat()[..]].concat()
    };
    for of_value in 0..16 {
        let v = context(0x0B, of_value, &|place| match place {
            0 => vec![0x00, 3],
            1 => vec![0x01, 1],
            2 => vec![0x0B, 1, 0, 1, 0, 0x00, 1],
            _ => vec![0x0A, 1, 0, 0x00, 2],
        });
        for of_type in 0..16 {
            for odd in 0..5 {
                let t = context(0x2C, of_type, &|place| match place {
                    _ if place == odd => vec![0x23],
                    0 => vec![0x2D, 0, 0x22],
                    1 => vec![0x21],
                    2 => vec![0x2C, 1, 0, 1, 0, 0x22],
                    _ => vec![0x2A, 0x20],
                });
                each(&v, &t);
                each(&[ONE, &v].concat(), &[&[0x2A], &t[..]].concat());
                each(&[ONE, &v].concat(), &t);
                each(&v, &[&[0x2A], &t[..]].concat());
                let inside = [&[0x0B, 2, 0, 4, 0], &v[..], &[5, 0, 0x0F]].concat();
                each(&inside, &[&[0x2C, 1, 0, 4, 0], &t[..]].concat());
            }
        }
    }
}

/// Every built-in function, alone and in lists, beside functions with up to two parameters, Any,
/// and lists of these.
fn each_built_in(options: &Options, each: &mut dyn FnMut(&[u8], &[u8])) {
    let mut types: Vec<Vec<u8>> = small_types(5, &FOUR, &[]);
    types.retain(|t| t[0] == 0x2D && t[1..].iter().all(|byte| *byte < 0x2A));
    types.extend([vec![0x20], vec![0x22], vec![0x29]]);
    for number in 0..86 {
        let known = number == 0 || number == 67;
        let mut taken = one_in(if known || !is_quick(options) { 1 } else { FEW });
        let bif: &[u8] = &[0x0D, number];
        for t in types.iter().filter(|_| taken()) {
            for of_lists in 0..3 {
                let t = [&[0x2A].repeat(of_lists), &t[..]].concat();
                each(bif, &t);
                each(&[ONE, bif].concat(), &t);
                each(&[ONE, ONE, bif].concat(), &t);
                each(&[&[0x0A, 2, 0], bif, bif].concat(), &t);
            }
        }
    }
}

/// Where a one-item list passes the limit of length or of level: values that are no lists beside
/// lists of Any and of their own type, with every room; and other long and deep values.
fn each_limit(options: &Options, each: &mut EachPair) {
    // No step has a factor in common with the number of endings of a chain.
    let steps = if is_quick(options) {
        [5, 25, 625]
    } else {
        [1, 5, 65]
    };
    let [mut some, mut few, mut fewest] = steps.map(one_in);
    let mut own_and_lists = |v: &[u8]| {
        let mut pair = |t: &[u8], every_room| {
            each(Pair {
                v,
                t,
                judged: every_room,
                every_room,
            })
        };
        let is_list = v.first() == Some(&0x0A);
        pair(&[0x20], false);
        pair(&[0x2A, 0x20], !is_list);
        pair(&[0x22], false);
        for t in own_types(v) {
            pair(&t, false);
            pair(&[&[0x2A], &t[..]].concat(), false);
            if is_list && t[0] == 0x2A {
                pair(&t[1..], false);
            }
        }
    };
    for length in MAX_LENGTH - 4..=MAX_LENGTH + 1 {
        let mut all = [long_data(length), long_records(Kind::Value, length)].concat();
        // A long range, and one-item lists of long values.
        let shorter = long_data(length - 12);
        all.push([&[0x09, 0, 1], &shorter[3][..], LEAVES[2]].concat());
        all.extend(shorter[13..16].iter().map(|v| [ONE, v].concat()));
        for v in all {
            let taken = if v[0] == 0x0A { few() } else { some() };
            if taken {
                own_and_lists(&v);
            }
        }
    }
    let levels = MAX_VALUE_LEVEL - 2..=MAX_VALUE_LEVEL + 1;
    each_data_chain(levels.clone(), &mut |v| {
        if some() {
            own_and_lists(v);
        }
    });
    each_chain(Kind::Value, levels, &mut |v| {
        if fewest() {
            own_and_lists(v);
        }
    });
}

/// A random value beside its shape and types near its own, with a list more or less on either side;
/// and a value near it.
fn random_pairs(parts: Parts, random: &mut Random, each: &mut EachTwo) {
    let tree = ValueTree::random_of_any_size(parts, random);
    let shape = tree.shape(random);
    let v = tree.bytes();
    let t = near(&shape, Move::Up, random).bytes();
    each(&v, &shape.bytes(), Some(&[]));
    each(&v, &t, Some(&[]));
    near_types(&v, random, each);
    each(&[ONE, &v].concat(), &t, Some(&[]));
    each(&v, &[&[0x2A], &t[..]].concat(), Some(&[]));
    let other = near_value(&tree, parts, random).bytes();
    each(&other, &shape.bytes(), Some(&[]));
    for t in own_types(&v) {
        each(&other, &near(&Tree::of(&t), Move::Up, random).bytes(), None);
    }
}

/// Cases of one value for a small question: all that is short, ranges of every two kinds, values at
/// the limits, random values, and damaged ones.
pub fn one_value(options: &Options, each: &mut EachCase) {
    let each: &mut Each = &mut |v| {
        each(Case {
            args: &[v],
            ..Case::default()
        })
    };
    let bytes: Vec<u8> = (0..=255).collect();
    for length in 0..=options.length.min(2) {
        each_string(&bytes, length, each);
    }
    refused_values().iter().for_each(|v| each(v));
    each_decimal(each);
    for leaf in leaves() {
        each_parent(&leaf, &[0x20], &mut |v, _| each(v));
    }
    for v in small_values(options.pair_length.min(3), &LEAVES, &[0, 1]) {
        each(&v);
    }
    each_range(is_quick(options), each);
    let mut taken = one_in(if is_quick(options) { 125 } else { 25 });
    let levels = MAX_VALUE_LEVEL - 1..=MAX_VALUE_LEVEL + 1;
    each_chain(Kind::Value, levels, &mut |v| {
        if taken() {
            each(v);
        }
    });
    each_long(Kind::Value, &mut |v| {
        if taken() {
            each(v);
        }
    });
    let mut random = Random::new(options.seed);
    for number in 0..options.pairs / 8 {
        let tree = ValueTree::random_of_any_size(Parts::All, &mut random);
        each(&tree.bytes());
        if number % 200 == 0 {
            each_damage(&tree.draft(), &mut random, each);
        }
    }
}

/// Ranges of every two kinds of ends with every two interval bytes; of few of the pairs of keys
/// where not all are wanted.
fn each_range(few: bool, each: &mut Each) {
    let mut ends: Vec<Vec<u8>> = (0..4).map(|trace| vec![0x00, trace]).collect();
    for number in [0u16, 1, 0x00FF, 0x0100, 0x8000, 0xFFFF] {
        ends.push([&[0x03], &number.to_le_bytes()[..]].concat());
    }
    for command in [0x02, 0x04, 0x05, 0x06, 0x07, 0x08] {
        for key in [i64::MIN, -1, 0, 1, 0x00FF, 0x0100, i64::MAX] {
            ends.push([&[command], &key.to_le_bytes()[..]].concat());
        }
    }
    for coefficient in [i64::MIN, -1, 0, 10, i64::MAX] {
        ends.extend([0, 1, 18].map(|exponent| decimal(coefficient, exponent)));
    }
    let others: [&[u8]; 10] = [
        &[0x01, 0],
        &[0x01, 1],
        &[0x09, 0, 0, 0x01, 0, 0x01, 1],
        &[0x0A, 0, 0],
        &[0x0A, 1, 0, 0x03, 1, 0],
        &[0x0B, 0, 0],
        &[0x0C, 0, 0, 0, 0x22],
        &[0x0D, 0],
        &[0x0E, 0x23],
        &[0x0F],
    ];
    ends.extend(others.map(<[u8]>::to_vec));
    let mut taken = one_in(if few { 5 } else { 1 });
    for start in &ends {
        for end in &ends {
            let both_numbers = [start, end].iter().all(|v| matches!(v[0], 0x02 | 0x10));
            let same = start[0] == end[0] || both_numbers;
            for interval in 0..16 {
                if same || taken() {
                    let head = [0x09, interval / 4, interval % 4];
                    each(&[&head, &start[..], end].concat());
                }
            }
        }
    }
}

/// Every byte.
pub fn one_byte(_: &Options, each: &mut EachCase) {
    for byte in 0..=255 {
        each(Case {
            args: &[&[byte]],
            ..Case::default()
        });
    }
}

/// Every byte with outputs of many lengths.
pub fn one_byte_and_output(_: &Options, each: &mut EachCase) {
    for byte in 0..=255 {
        for output in [0, 1, 2, 3, 4, 5, 6, 100] {
            each(Case {
                args: &[&[byte]],
                output,
                ..Case::default()
            });
        }
    }
}
