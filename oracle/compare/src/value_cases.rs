//! The cases of the calls over a value and a type, and over one value.

use crate::call::{Case, EachCase, Options};
use crate::type_cases::{BUFFERS_EACH, EachTwo, EachType, rooms, short_types, tiny_types};
use feel_cases::{
    Each, Kind, Move, Parts, Random, Tree, ValueTree, decimal, each_chain, each_damage,
    each_data_chain, each_decimal, each_definition, each_long, each_string, long_data,
    long_records, near, near_value, small_types, small_values,
};
use feel_form::{MAX_LENGTH, MAX_VALUE_LEVEL, calls};

/// Leaves of small values: Null, data of three types, Irrelevant, 1 as a decimal.
pub const LEAVES: [&[u8]; 6] = [
    &[0x00, 0],
    &[0x01, 1],
    &[0x02, 1, 0, 0, 0, 0, 0, 0, 0],
    &[0x03, 7, 0],
    &[0x0F],
    &[0x10, 10, 0, 0, 0, 0, 0, 0, 0, 1],
];

/// Of so many records of one sort one is taken where they are many and a case costs much.
pub const FEW: usize = 8;

/// Cases of a value and a type.
pub fn value_and_type(options: &Options, each: &mut EachCase) {
    each_pair(options, &mut |v, t, others| {
        each(Case {
            args: &[v, t],
            others,
            ..Case::default()
        })
    });
}

/// A call over a value with scratch and room: its bytes, or the refusal.
type TypeOf = fn(&[u8], usize, usize) -> Result<Vec<u8>, u8>;

/// Cases of one value, scratch of four times its length, and an output as long as the value;
/// sometimes of each length around the need, seldom where the value is not read.
pub fn one_value_and_buffers(parts: Parts, call: TypeOf, options: &Options, each: &mut EachCase) {
    let mut count = 0;
    each_value(parts, options, &mut |v, others| {
        let wanted = 4 * v.len();
        let case = Case {
            args: &[v],
            others,
            scratch: wanted,
            output: v.len(),
        };
        each(case);
        count += 1;
        if count % BUFFERS_EACH == 0 {
            let answer = call(v, usize::MAX, usize::MAX);
            let unread = matches!(answer, Err(1..=5));
            if unread && count % (16 * BUFFERS_EACH) > 0 {
                return;
            }
            let need = answer.map_or(1, |answer| answer.len());
            for scratch in [0, v.len(), wanted.saturating_sub(1), wanted, wanted + 1] {
                for output in rooms(need, v.len()) {
                    each(Case {
                        others: None,
                        scratch,
                        output,
                        ..case
                    });
                }
            }
        }
    });
}

fn each_value(parts: Parts, options: &Options, each: &mut EachType) {
    let bytes: Vec<u8> = (0..=255).collect();
    for length in 0..=options.length.min(2) {
        each_string(&bytes, length, &mut |v| each(v, None));
    }
    let types = [0x20, 0x22, 0x2A, 0x2D];
    let alphabet: Vec<u8> = (0x00..=0x10).chain(types).collect();
    for length in 1..=options.alphabet_length.min(4) {
        each_string(&alphabet, length, &mut |v| each(v, None));
    }
    for bad in refused_values() {
        each(&bad, None);
    }
    each_decimal(&mut |v| each(v, Some(&[])));
    let pool = tiny_types();
    let others: Vec<&[u8]> = pool.iter().map(|t| &t[..]).collect();
    for v in small_values(options.pair_length, &LEAVES, &[0, 1]) {
        each(&v, Some(&others));
    }
    for v in small_values(options.pair_length + 1, &LEAVES[..2], &[1]) {
        each(&v, Some(&[]));
    }
    for leaf in leaves() {
        each_parent(&leaf, &[0x22], &mut |v, _| each(v, Some(&others)));
    }
    let mut taken = one_in(if is_quick(options) { FEW } else { 1 });
    each_ends(&mut |v| each(v, Some(&others)));
    each_types_together(options, &mut |v| each(v, Some(&[])));
    let levels = MAX_VALUE_LEVEL - 2..=MAX_VALUE_LEVEL + 1;
    each_data_chain(levels.clone(), &mut |v| each(v, Some(&[])));
    each_chain(Kind::Value, levels.skip(2), &mut |v| {
        if taken() {
            each(v, None);
        }
    });
    each_long(Kind::Value, &mut |v| {
        if taken() {
            each(v, None);
        }
    });
    for length in MAX_LENGTH - 1..=MAX_LENGTH + 1 {
        for v in long_data(length) {
            each(&v, Some(&[]));
        }
    }
    let mut random = Random::new(options.seed);
    for number in 0..options.pairs {
        // Of the data some is not: a part of it is refused.
        let parts = if number % 8 == 0 { Parts::All } else { parts };
        let tree = ValueTree::random_of_any_size(parts, &mut random);
        let shape = tree.shape(&mut random);
        let others = [Move::Up, Move::Down, Move::Free].map(|how| near(&shape, how, &mut random));
        let [up, down, free] = others.map(|other| other.bytes());
        let draft = tree.draft();
        each(&draft.bytes, Some(&[&shape.bytes(), &up, &down, &free]));
        if number % 100 == 0 {
            each_damage(&draft, &mut random, &mut |v| each(v, None));
        }
    }
}

fn each_pair(options: &Options, each: &mut EachTwo) {
    small_pairs(options, each);
    let pool = tiny_types();
    let mut taken = one_in(if is_quick(options) { FEW } else { 1 });
    for leaf in leaves() {
        for t in pool.iter().filter(|_| taken()) {
            each_parent(&leaf, t, &mut |v, t| each(v, t, Some(&[])));
        }
    }
    each_ends(&mut |v| {
        for t in small_types(2, &[0x20, 0x21, 0x22, 0x23, 0x24, 0x28, 0x29], &[]) {
            each(v, &t, Some(&[]));
        }
    });
    each_definition(step(options), &mut |v, t| each(v, t, Some(&[])));
    refused_pairs(options, each);
    let mut random = Random::new(options.seed);
    let levels = MAX_VALUE_LEVEL - 1..=MAX_VALUE_LEVEL + 1;
    each_data_chain(levels.clone(), &mut |v| near_types(v, &mut random, each));
    let mut taken = one_in(FEW);
    each_chain(Kind::Value, levels.skip(1), &mut |v| {
        if taken() {
            near_types(v, &mut random, each);
        }
    });
    for length in MAX_LENGTH - 1..=MAX_LENGTH + 1 {
        for v in [long_data(length), long_records(Kind::Value, length)].concat() {
            // The theorems are judged once for each of them.
            each(&v, &[0x20], Some(&[]));
            near_types(&v, &mut random, &mut |v, t, _| each(v, t, None));
        }
        for v in long_data(MAX_LENGTH) {
            for t in long_records(Kind::Type, length) {
                each(&v, &t, None);
            }
        }
    }
    for number in 0..options.pairs / 2 {
        let parts = if number % 2 == 0 {
            Parts::All
        } else {
            Parts::Data
        };
        let tree = ValueTree::random_of_any_size(parts, &mut random);
        let shape = tree.shape(&mut random).bytes();
        let v = tree.bytes();
        each(&v, &shape, Some(&[]));
        near_types(&v, &mut random, each);
        // Another value beside the types of this one.
        let other = near_value(&tree, parts, &mut random).bytes();
        for t in own_types(&v) {
            each(&other, &t, Some(&[&shape]));
        }
    }
    for _ in 0..options.count / 100 {
        damaged_pair(&mut random, each);
    }
}

/// All small values beside all short types, and larger ones beside few types.
fn small_pairs(options: &Options, each: &mut EachTwo) {
    let short = short_types();
    for v in small_values(options.pair_length.saturating_sub(1), &LEAVES, &[0, 1]) {
        for t in &short {
            each(&v, t, Some(&[]));
        }
    }
    let pool = tiny_types();
    for v in small_values(options.pair_length, &LEAVES, &[0, 1]) {
        for t in &pool {
            each(&v, t, Some(&[]));
        }
    }
    let others: Vec<&[u8]> = pool.iter().map(|t| &t[..]).collect();
    for v in small_values(2, &LEAVES, &[0, 1]) {
        for t in &pool {
            each(&v, t, Some(&others));
        }
    }
}

/// A leaf of each kind, every built-in function, types and small function definitions as values.
pub fn leaves() -> Vec<Vec<u8>> {
    let mut all: Vec<Vec<u8>> = (0..4).map(|trace| vec![0x00, trace]).collect();
    all.extend([
        vec![0x01, 0],
        vec![0x01, 1],
        vec![0x03, 0xFF, 0xFF],
        vec![0x0F],
    ]);
    for command in [0x02, 0x04, 0x05, 0x06, 0x07, 0x08] {
        all.push([&[command], &(-1i64).to_le_bytes()[..]].concat());
    }
    all.extend([decimal(250, 2), decimal(-1, 0)]);
    all.extend((0..86).map(|number| vec![0x0D, number]));
    for t in tiny_types() {
        all.push([&[0x0E], &t[..]].concat());
        all.push([&[0x0C, 0, 0, 0], &t[..]].concat());
        all.push([&[0x0C, 1, 0, 0, 0x22, 9, 0], &t[..]].concat());
    }
    all
}

/// The value beside the type; both in a list, with Null, in a range, in a context with one name
/// more, and with one name less than the type has; a value in a list beside the type alone, and the
/// reverse.
pub fn each_parent(v: &[u8], t: &[u8], each: &mut dyn FnMut(&[u8], &[u8])) {
    let list = [&[0x0A, 1, 0], v].concat();
    let of_list = [&[0x2A], t].concat();
    let null: &[u8] = &[0x00, 0];
    let context = [&[0x0B, 2, 0, 0, 0, 0x0F, 1, 0], v].concat();
    each(v, t);
    each(&list, &of_list);
    each(&list, t);
    each(v, &of_list);
    each(&[&[0x0A, 2, 0], null, v].concat(), &of_list);
    each(&[&[0x0A, 3, 0], v, null, v].concat(), &of_list);
    each(&[&[0x09, 0, 2], v, null].concat(), &[&[0x2B], t].concat());
    each(&[&[0x09, 0, 2], null, v].concat(), &of_list);
    each(&context, &[&[0x2C, 1, 0, 1, 0], t].concat());
    each(&context, &[&[0x2C, 2, 0, 1, 0], t, &[2, 0, 0x20]].concat());
}

/// Ranges and lists of two, of each two kinds of leaves.
pub fn each_ends(each: &mut Each) {
    let mut kinds = leaves();
    kinds.retain(|v| v[0] < 0x0C || v[0] == 0x10 || v == &[0x0D, 0] || v == &[0x0F]);
    kinds.extend([vec![0x0A, 0, 0], vec![0x0B, 0, 0], vec![0x0E, 0x22]]);
    kinds.push(vec![0x0C, 0, 0, 0, 0x22]);
    for a in &kinds {
        for b in &kinds {
            each(&[&[0x09, 2, 2], &a[..], b].concat());
            each(&[&[0x0A, 2, 0], &a[..], b].concat());
        }
    }
}

/// Types as values, two or three in a list and two in a range, so that the type of a list depends
/// on conformance of each two types; function definitions among them.
fn each_types_together(options: &Options, each: &mut Each) {
    let mut pool = tiny_types();
    let value = |t: &[u8]| [&[0x0E], t].concat();
    for a in &pool {
        for b in &pool {
            each(&[&[0x0A, 2, 0], &value(a)[..], &value(b)].concat());
            each(&[&[0x09, 0, 0], &value(a)[..], &value(b)].concat());
        }
    }
    pool.extend(short_types());
    let mut random = Random::new(options.seed);
    for _ in 0..options.pairs / 4 {
        let [a, b, c] = [0; 3].map(|_| value(&pool[random.below(pool.len())]));
        each(&[&[0x0A, 3, 0], &a[..], &b, &c].concat());
        let tree = Tree::random(6, 1 + random.below(12), &mut random);
        let how = random.pick(&[Move::Up, Move::Down, Move::Free]);
        let [x, y] = [near(&tree, how, &mut random), tree].map(|tree| value(&tree.bytes()));
        each(&[&[0x0A, 2, 0], &x[..], &y].concat());
        each(&[&[0x0A, 2, 0], &y[..], &x].concat());
    }
    let mut taken = one_in(2 * FEW);
    each_definition(step(options), &mut |v, t| {
        if taken() {
            each(&[&[0x0A, 2, 0], v, &value(t)].concat());
            each(&[&[0x0A, 2, 0], &value(t)[..], v].concat());
        }
    });
}

/// Of how many ways in which a function definition stands to a function type one is taken.
pub fn step(options: &Options) -> usize {
    if is_quick(options) { 40 } else { 4 }
}

/// Whether few random cases are wanted, and then few of the others.
pub fn is_quick(options: &Options) -> bool {
    options.pairs < 50_000
}

/// Says yes each time after `step - 1` times no.
pub fn one_in(step: usize) -> impl FnMut() -> bool {
    let mut count = 0;
    move || {
        count += 1;
        count % step == 0
    }
}

/// The inferred and the least type of a value, as far as it has them.
pub fn own_types(v: &[u8]) -> Vec<Vec<u8>> {
    let least = calls::value_least_type(v, usize::MAX, usize::MAX);
    let inferred = calls::value_type_of(v, usize::MAX, usize::MAX);
    [inferred, least].into_iter().flatten().collect()
}

/// The value beside its own types, and beside copies of them: widened, narrowed, changed, one level
/// more and one less. A value that is refused stands beside Any.
pub fn near_types(v: &[u8], random: &mut Random, each: &mut EachTwo) {
    let own = own_types(v);
    if own.is_empty() {
        each(v, &[0x20], None);
    }
    for t in own {
        let tree = Tree::of(&t);
        let copies = [Move::Up, Move::Down, Move::Free].map(|how| near(&tree, how, random));
        let [up, down, free] = copies.map(|copy| copy.bytes());
        each(v, &t, Some(&[&up, &free]));
        each(v, &up, Some(&[&t]));
        each(v, &down, Some(&[&t]));
        each(v, &free, Some(&[&t]));
        match random.below(3) {
            0 => each(v, &[&[0x2A], &t[..]].concat(), Some(&[])),
            1 if t[0] == 0x2A || t[0] == 0x2B => each(v, &t[1..], Some(&[])),
            _ => {}
        }
    }
}

/// Values for each of the refusals 1 to 5.
pub fn refused_values() -> Vec<Vec<u8>> {
    vec![
        vec![],
        long_records(Kind::Value, MAX_LENGTH + 1).swap_remove(0),
        vec![0x10],
        vec![0x11],
        decimal(25, 19),
        decimal(25, 1)[..9].to_vec(),
        vec![0x22],
        vec![0x00, 4],
        vec![0x0A, 1, 0],
        vec![0x0A, 2, 0, 0x0F, 0xFF],
        vec![0x0B, 2, 0, 1, 0, 0x0F, 1, 0, 0x0F],
        vec![0x0E, 0x2C, 2, 0, 1, 0, 0x20, 0, 0, 0x20],
        [&[0x0A, 1, 0].repeat(31), &[0x0F][..]].concat(),
        [&[0x0E][..], &[0x2A].repeat(30), &[0x20]].concat(),
        vec![0x0F, 0x0F],
        vec![0x0A, 0, 0, 0x2A],
    ]
}

/// Types for each of the refusals 6 to 10.
pub fn refused_types() -> Vec<Vec<u8>> {
    vec![
        vec![],
        long_records(Kind::Type, MAX_LENGTH + 1).swap_remove(0),
        vec![0x2E],
        vec![0x0F],
        vec![0x2A],
        vec![0x2D, 0, 0x00],
        vec![0x2C, 2, 0, 1, 0, 0x20, 1, 0, 0x20],
        [&[0x2A].repeat(32), &[0x20][..]].concat(),
        vec![0x20, 0x20],
        vec![0x29, 0x00],
    ]
}

/// Each refused value and an accepted one beside each refused type and an accepted one.
pub fn refused_pairs(options: &Options, each: &mut EachTwo) {
    let accepted: [&[u8]; 4] = [&[0x00, 0], &[0x01, 1], &[0x0F], &[0x0A, 1, 0, 0x01, 1]];
    let types: [&[u8]; 4] = [&[0x20], &[0x29], &[0x21], &[0x2A, 0x21]];
    let (bad_values, bad_types) = (refused_values(), refused_types());
    for t in bad_types.iter().map(|t| &t[..]).chain(types) {
        for v in bad_values.iter().map(|v| &v[..]).chain(accepted) {
            each(v, t, None);
        }
    }
    // Any bytes on one side, a record on the other.
    let bytes: Vec<u8> = (0..=255).collect();
    for length in 0..=options.length.min(2) {
        each_string(&bytes, length, &mut |v| each(v, &[0x20], None));
        each_string(&bytes, length, &mut |t| each(&[0x0A, 0, 0], t, None));
    }
}

/// A value and a type near its own, the value damaged, the type damaged, and both; and Null with
/// the type damaged.
pub fn damaged_pair(random: &mut Random, each: &mut EachTwo) {
    let tree = ValueTree::random_of_any_size(Parts::All, random);
    let (v, t) = (
        tree.draft(),
        near(&tree.shape(random), Move::Up, random).draft(),
    );
    let mut damaged = |draft| {
        let mut copies = vec![];
        let keep: &mut Each = &mut |bytes| copies.push(bytes.to_vec());
        each_damage(draft, random, keep);
        copies
    };
    let (bad_v, bad_t) = (damaged(&v), damaged(&t));
    for bad in &bad_v {
        each(bad, &t.bytes, None);
        each(bad, &bad_t[random.below(bad_t.len())], None);
    }
    for bad in &bad_t {
        each(&v.bytes, bad, None);
        each(&[0x00, 0], bad, None);
    }
}
