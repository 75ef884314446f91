//! The cases of the calls over one type and over two types.

use crate::call::{Case, EachCase, Options};
use feel_cases::{
    Each, Kind, Move, Random, Tree, each_chain, each_damage, each_deep_pair, each_long,
    each_long_pair, each_string, instances, near, small_contexts, small_types,
};
use feel_form::{MAX_LENGTH, MAX_TYPE_LEVEL, calls};

/// Every simple type.
pub const TEN: [u8; 10] = [0x20, 0x21, 0x22, 0x23, 0x24, 0x25, 0x26, 0x27, 0x28, 0x29];

/// Simple types enough for every answer.
pub const FOUR: [u8; 4] = [0x20, 0x22, 0x23, 0x29];

/// Of this many cases one is repeated with every length of the buffers around the need.
pub const BUFFERS_EACH: usize = 16;

/// Other types for the checks of the theorems, or none where nothing is to be checked.
type Others<'a> = Option<&'a [&'a [u8]]>;

/// Receives one type and others near it.
pub type EachType<'a> = dyn FnMut(&[u8], Others) + 'a;

/// Receives two types and others near them.
pub type EachTwo<'a> = dyn FnMut(&[u8], &[u8], Others) + 'a;

/// Cases of one type.
pub fn one_type(options: &Options, each: &mut EachCase) {
    each_type(options, &mut |t, others| {
        each(Case {
            args: &[t],
            others,
            ..Case::default()
        })
    });
}

/// Cases of one type and an output, which is as long as the type; sometimes of each length around
/// the need.
pub fn one_type_and_output(options: &Options, each: &mut EachCase) {
    let mut count = 0;
    each_type(options, &mut |t, others| {
        let case = Case {
            args: &[t],
            others,
            output: t.len(),
            ..Case::default()
        };
        each(case);
        count += 1;
        if count % BUFFERS_EACH == 0 {
            let need = calls::reduced(t, usize::MAX).map_or(1, |answer| answer.len());
            for output in rooms(need, t.len()) {
                each(Case {
                    others: None,
                    output,
                    ..case
                });
            }
        }
    });
}

/// Cases of two types.
pub fn two_types(options: &Options, each: &mut EachCase) {
    each_two(options, &mut |a, b, others| {
        each(Case {
            args: &[a, b],
            others,
            ..Case::default()
        })
    });
}

/// A call over two types with scratch and room: its bytes, or the refusal.
type Bound = fn(&[u8], &[u8], usize, usize) -> Result<Vec<u8>, u8>;

/// Cases of two types, scratch and an output, both of them as long as the two types together;
/// sometimes of each length around the need, and always where the answer is longer than a type that
/// can be read.
pub fn two_types_and_buffers(bound: Bound, options: &Options, each: &mut EachCase) {
    let mut count = 0;
    each_two(options, &mut |a, b, others| {
        let sum = a.len() + b.len();
        let case = Case {
            args: &[a, b],
            others,
            scratch: sum,
            output: sum,
        };
        each(case);
        count += 1;
        let sampled = count % BUFFERS_EACH == 0;
        if !sampled && sum <= MAX_LENGTH {
            return;
        }
        let answer = bound(a, b, usize::MAX, usize::MAX);
        let need = answer.map_or(1, |answer| answer.len());
        if sampled || need > MAX_LENGTH {
            for scratch in [0, sum.saturating_sub(1), sum, sum + 1, 2 * sum] {
                for output in rooms(need, sum) {
                    each(Case {
                        others: None,
                        scratch,
                        output,
                        ..case
                    });
                }
            }
        }
    });
}

/// Lengths of an output around the need.
pub fn rooms(need: usize, longest: usize) -> [usize; 6] {
    [0, need - 1, need, need + 1, need + 100, longest]
}

fn each_type(options: &Options, each: &mut EachType) {
    let bytes: Vec<u8> = (0..=255).collect();
    for length in 0..=options.length.min(2) {
        each_string(&bytes, length, &mut |t| each(t, None));
    }
    let alphabet: Vec<u8> = (0..3).chain(0x20..0x2E).collect();
    for length in 1..=options.alphabet_length.min(4) {
        each_string(&alphabet, length, &mut |t| each(t, None));
    }
    let levels = MAX_TYPE_LEVEL - 1..=MAX_TYPE_LEVEL + 1;
    each_chain(Kind::Type, levels, &mut |t| each(t, Some(&[])));
    each_long(Kind::Type, &mut |t| each(t, None));
    let pool = tiny_types();
    let others: Vec<&[u8]> = pool.iter().map(|t| &t[..]).collect();
    for t in &pool {
        each(t, Some(&others));
    }
    for t in short_types() {
        each(&t, Some(&[]));
    }
    let mut random = Random::new(options.seed);
    for number in 0..options.pairs / 4 {
        let tree = Tree::random_of_any_size(&mut random);
        let others = [Move::Up, Move::Down, Move::Free].map(|how| near(&tree, how, &mut random));
        let [up, down, free] = others.map(|other| other.bytes());
        let draft = tree.draft();
        each(&draft.bytes, Some(&[&up, &down, &free]));
        if number % 100 == 0 {
            each_damage(&draft, &mut random, &mut |t| each(t, None));
        }
    }
}

fn each_two(options: &Options, each: &mut EachTwo) {
    let shortest = small_types(options.pair_length, &TEN, &[0, 1]);
    for a in &shortest {
        for b in &shortest {
            each(a, b, Some(&[]));
        }
    }
    let pool = tiny_types();
    let others: Vec<&[u8]> = pool.iter().map(|t| &t[..]).collect();
    for a in &pool {
        for b in &pool {
            each(a, b, Some(&others));
        }
    }
    each_deep_pair(&mut |a, b| each(a, b, Some(&[])));
    each_long_pair(&mut |a, b| each(a, b, Some(&[])));
    let mut random = Random::new(options.seed);
    let pool = short_types();
    for _ in 0..options.pairs {
        let [a, b, c] = [0; 3].map(|_| &pool[random.below(pool.len())]);
        each(a, b, Some(&[c]));
    }
    for _ in 0..options.pairs {
        let [base, a, b, c] = family(&mut random).map(|tree| tree.bytes());
        each(&a, &b, Some(&[&base, &c]));
    }
    for _ in 0..options.pairs / 4 {
        let base = Tree::random_of_any_size(&mut random);
        let [a, b] = instances(base, &mut random).map(|tree| tree.bytes());
        each(&a, &b, Some(&[]));
    }
    for _ in 0..options.count / 100 {
        damaged_pair(&mut random, each);
    }
}

/// The ways the last three types of a family may stand to the first.
const FAMILIES: [[Move; 3]; 8] = [
    [Move::Down, Move::Up, Move::Free],
    [Move::Down, Move::Up, Move::Up],
    [Move::Up, Move::Down, Move::Free],
    [Move::Up, Move::Up, Move::Down],
    [Move::Down, Move::Down, Move::Up],
    [Move::Free, Move::Free, Move::Free],
    [Move::Free, Move::Up, Move::Down],
    [Move::Down, Move::Free, Move::Up],
];

/// A random type, and three that are near it or equal to it.
fn family(random: &mut Random) -> [Tree; 4] {
    let base = Tree::random_of_any_size(random);
    let [a, b, c] = random.pick(&FAMILIES).map(|how| match random.below(8) {
        0 => base.clone(),
        _ => near(&base, how, random),
    });
    [base, a, b, c]
}

/// Two types near each other, the first damaged, the second damaged, and both; and Any or Null with
/// the second damaged.
fn damaged_pair(random: &mut Random, each: &mut EachTwo) {
    let [_, a, b, _] = family(random).map(|tree| tree.draft());
    let mut damaged = |draft| {
        let mut copies = vec![];
        let keep: &mut Each = &mut |bytes| copies.push(bytes.to_vec());
        each_damage(draft, random, keep);
        copies
    };
    let (bad_a, bad_b) = (damaged(&a), damaged(&b));
    for bad in &bad_a {
        each(bad, &b.bytes, None);
        each(bad, &bad_b[random.below(bad_b.len())], None);
    }
    for bad in &bad_b {
        each(&a.bytes, bad, None);
        each(&[random.pick(&[0x20, 0x29])], bad, None);
    }
}

/// A few types of every kind, for all pairs with all others.
pub fn tiny_types() -> Vec<Vec<u8>> {
    let mut all = small_types(3, &FOUR, &[]);
    all.retain(|t| t[0] != 0x2C);
    all.extend(small_contexts(&FOUR, &[0, 1]));
    for parameter in FOUR {
        all.extend(FOUR.map(|result| vec![0x2D, 1, parameter, result]));
    }
    all
}

/// All types of up to six bytes over a few simple types, and contexts with two names.
pub fn short_types() -> Vec<Vec<u8>> {
    let mut all = small_types(6, &FOUR, &[0, 1]);
    all.extend(
        small_contexts(&FOUR, &[0, 1])
            .into_iter()
            .filter(|t| t.len() > 6),
    );
    all
}
