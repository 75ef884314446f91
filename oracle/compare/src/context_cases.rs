//! The cases of the calls over contexts.

use crate::call::{Case, EachCase, Options};
use crate::context_answers::Build;
use crate::type_cases::{BUFFERS_EACH, rooms};
use crate::value_cases::{LEAVES, is_quick, leaves, one_in, refused_values};
use feel_cases::{
    Each, Kind, Parts, Random, ValueTree, context_chain, decimal, each_damage, each_string,
    filled_list, long_data, long_records, near_value, random_context, random_path, small_values,
};
use feel_form::{MAX_LENGTH, MAX_VALUE_LEVEL, contexts};

/// What a path of 31 names adds to a context beside its own bytes, and some more.
const MORE: usize = 100;

/// How a case is run.
#[derive(Clone, Copy, PartialEq, Eq)]
pub enum How {
    /// The theorems are judged.
    Judged,
    /// The theorems are not judged.
    Plain,
    /// The theorems are not judged, and every length of the output around the need is tried.
    EveryRoom,
}

/// Receives the arguments one after the other.
pub type EachArgs<'a> = dyn FnMut(&[&[u8]], How) + 'a;

/// Makes arguments.
pub type Generate = fn(&Options, &mut EachArgs);

/// Cases of a call without an output.
pub fn asked(generate: Generate, options: &Options, each: &mut EachCase) {
    generate(options, &mut |args, how| {
        each(Case {
            args,
            others: (how == How::Judged).then_some(&[]),
            ..Case::default()
        })
    });
}

/// Cases of a call with an output that is long enough; where it is wanted, and sometimes, with one
/// of each length around the need, seldom where a value is not read.
pub fn built(generate: Generate, call: Build, options: &Options, each: &mut EachCase) {
    let mut count = 0;
    generate(options, &mut |args, how| {
        let case = Case {
            args,
            others: (how == How::Judged).then_some(&[]),
            output: args.iter().map(|arg| arg.len()).sum::<usize>() + MORE,
            ..Case::default()
        };
        each(case);
        count += 1;
        let every = how == How::EveryRoom;
        if !every && count % BUFFERS_EACH > 0 {
            return;
        }
        let answer = call(args, usize::MAX);
        let unread = matches!(answer, Err(1..=5));
        if !every && unread && count % (16 * BUFFERS_EACH) > 0 {
            return;
        }
        let need = answer.map_or(1, |answer| answer.len());
        for output in rooms(need, case.output) {
            each(Case {
                others: None,
                output,
                ..case
            });
        }
    });
}

/// Arguments: a context.
pub fn alone(options: &Options, each: &mut EachArgs) {
    let each: &mut Each = &mut |c| each(&[c], How::Judged);
    let bytes: Vec<u8> = (0..=255).collect();
    for length in 0..=options.length.min(2) {
        each_string(&bytes, length, each);
    }
    each_beginning(options, each);
    refused_values().iter().for_each(|v| each(v));
    others().iter().for_each(|v| each(v));
    for v in small_values(options.pair_length, &LEAVES, &[0, 1]) {
        each(&v);
    }
    for count in [0, 1, 2, 3, 254, 255, 256, 257, 511, 512, 513, 5_459, 5_460] {
        each(&numbered(count, 0, 1, &[0x0F]));
        each(&numbered(count, 0x00FF, 3, &[0x0F]));
    }
    deep_contexts().iter().for_each(|c| each(c));
    wide_contexts(MAX_LENGTH - 1..=MAX_LENGTH + 1)
        .iter()
        .for_each(|c| each(c));
    let mut random = Random::new(options.seed);
    for number in 0..options.pairs / 3 {
        let tree = random_context(&mut random);
        each(&tree.bytes());
        if number % 700 == 0 {
            each_damage(&tree.draft(), &mut random, each);
        }
    }
}

/// Arguments: a context and a name.
pub fn with_name(options: &Options, each: &mut EachArgs) {
    let mut each = |c: &[u8], name: u16, how| each(&[c, &name.to_le_bytes()], how);
    for c in small(options) {
        for name in [0, 1, 2, 0x0100, 0xFFFF] {
            each(&c, name, How::Judged);
        }
    }
    for c in nested(options) {
        for name in [0, 1] {
            each(&c, name, How::Judged);
        }
    }
    for kind in 0..3 {
        for c in choices(kind) {
            for name in NAMES.into_iter().chain([2, 0x00FE, 0xFF00, 0xFFFE]) {
                each(&c, name, How::Judged);
            }
        }
    }
    each_beginning(options, &mut |c| each(c, 0, How::Plain));
    for v in refused_values().iter().chain(&others()) {
        for name in [0, 1] {
            each(v, name, How::EveryRoom);
        }
    }
    for c in deep_contexts() {
        for name in 0..3 {
            each(&c, name, How::EveryRoom);
        }
    }
    // A null adds four bytes, or takes the place of another entry.
    for length in MAX_LENGTH - 7..=MAX_LENGTH + 1 {
        for name in 0..3 {
            let list = filled_list(length - 5);
            each(&context_chain(1, 1, &list), name, How::EveryRoom);
            let last = [
                &[0x0B, 2, 0, 1, 0],
                &filled_list(length - 8)[..],
                &[2, 0, 0x0F],
            ];
            each(&last.concat(), name, How::EveryRoom);
        }
    }
    let lengths = if is_quick(options) { 1 } else { 4 };
    for c in wide_contexts(MAX_LENGTH - lengths..=MAX_LENGTH) {
        let count = u16::from_le_bytes([c[1], c[2]]);
        for name in [0, 1, 0x00FF, 0x0100, count / 2, count - 1, count, 0xFFFF] {
            each(&c, name, How::Plain);
        }
    }
    let mut random = Random::new(options.seed);
    for number in 0..options.pairs / 3 {
        let tree = random_context(&mut random);
        let c = tree.bytes();
        let how = judged_sometimes(number);
        for _ in 0..3 {
            each(&c, first_name(&tree, &mut random), how);
        }
        if number % 700 == 0 {
            let name = first_name(&tree, &mut random);
            let damaged: &mut Each = &mut |c| each(c, name, How::Plain);
            each_damage(&tree.draft(), &mut random, damaged);
        }
    }
}

/// Arguments: a context and a path.
pub fn with_path(options: &Options, each: &mut EachArgs) {
    let mut each = |c: &[u8], path: &[u16], how| each(&[c, &spelled(path)], how);
    let short = all_paths(3, &[0, 1, 2]);
    for c in small(options) {
        for path in &short {
            each(&c, path, How::Judged);
        }
    }
    let longer = all_paths(4, &[0, 1]);
    for c in nested(options) {
        for path in &longer {
            each(&c, path, How::Plain);
        }
    }
    for c in choices(0) {
        for name in NAMES.into_iter().chain([2, 0x00FE, 0xFF00, 0xFFFE]) {
            each(&c, &[name], How::Judged);
            each(&c, &[name, 1], How::Judged);
            each(&c, &[name, 0x0100], How::Judged);
        }
    }
    // Along a chain, beside it, and past its end.
    for count in 0..=MAX_VALUE_LEVEL {
        for end in [&[0x0F][..], &[0x0B, 0, 0], &[0x0A, 1, 0, 0x0B, 0, 0]] {
            let c = context_chain(1, count, end);
            for names in 0..=33 {
                let mut path = vec![1; names];
                each(&c, &path, How::Plain);
                for place in [0, names / 2, names.wrapping_sub(1)] {
                    if place < names {
                        path[place] = 2;
                        each(&c, &path, How::Plain);
                        path[place] = 1;
                    }
                }
            }
        }
    }
    each_beginning(options, &mut |c| each(c, &[0, 1], How::Plain));
    for v in refused_values().iter().chain(&others()) {
        for path in few_paths() {
            each(v, &path, How::Plain);
        }
    }
    for names in LONG_PATHS {
        for c in [&[0x0B, 0, 0][..], &[0x0B, 1, 0, 1, 0, 0x0F], &[0x0F], &[]] {
            each(c, &vec![1; names], How::Plain);
        }
    }
    for c in wide_contexts(MAX_LENGTH - 1..=MAX_LENGTH + 1) {
        let count = u16::from_le_bytes([c[1], c[2]]);
        for name in [0, 1, count / 2, count - 1, count, 0xFFFF] {
            each(&c, &[name], How::Plain);
            each(&context_chain(7, 1, &c), &[7, name], How::Plain);
            each(&c, &[name, 0], How::Plain);
        }
    }
    let mut random = Random::new(options.seed);
    for number in 0..options.pairs / 3 {
        let tree = random_context(&mut random);
        let c = tree.bytes();
        let how = judged_sometimes(number);
        for _ in 0..3 {
            each(&c, &random_path(&tree, &mut random), how);
        }
        if number % 1_000 == 0 {
            let path = random_path(&tree, &mut random);
            let damaged: &mut Each = &mut |c| each(c, &path, How::Plain);
            each_damage(&tree.draft(), &mut random, damaged);
        }
    }
}

/// Arguments: a context, a path and a value.
pub fn with_path_and_value(options: &Options, each: &mut EachArgs) {
    let mut each = |c: &[u8], path: &[u16], v: &[u8], how| each(&[c, &spelled(path), v], how);
    each_put(options, 4, &mut each);
    for names in LONG_PATHS {
        for c in [&[0x0B, 0, 0][..], &[0x0B, 1, 0, 1, 0, 0x0F], &[0x0F], &[]] {
            for v in [&[0x0F][..], &[0x10], &[0x10; 10], &decimal(25, 1), &[]] {
                each(c, &vec![1; names], v, How::Plain);
            }
        }
    }
    // The refusals of each argument with those of the others.
    let mut accepted = vec![vec![0x0B, 0, 0], vec![0x0F], vec![0x0A, 1, 0, 0x0B, 0, 0]];
    accepted.push(context_chain(1, 1, &[0x0F]));
    accepted.push(context_chain(1, 30, &[0x0F]));
    let values = [refused_values(), accepted].concat();
    let mut taken = one_in(if is_quick(options) { 5 } else { 1 });
    for c in &values {
        for path in few_paths() {
            for v in values.iter().filter(|_| taken()) {
                each(c, &path, v, How::EveryRoom);
            }
        }
    }
}

/// Arguments: a context, a name and a value.
pub fn with_name_and_value(options: &Options, each: &mut EachArgs) {
    let mut each = |c: &[u8], name: u16, v: &[u8], how| each(&[c, &name.to_le_bytes(), v], how);
    each_put(options, 4, &mut |c, path, v, how| {
        if let [name] = path {
            each(c, *name, v, how);
        }
    });
    for kind in 0..3 {
        for c in choices(kind) {
            for name in NAMES.into_iter().chain([2, 0x00FE, 0xFF00, 0xFFFE]) {
                for v in VALUES {
                    each(&c, name, v, How::Judged);
                }
            }
        }
    }
    let mut accepted = vec![vec![0x0B, 0, 0], vec![0x0F], vec![0x0A, 1, 0, 0x0B, 0, 0]];
    accepted.push(context_chain(1, 30, &[0x0F]));
    let values = [refused_values(), accepted].concat();
    for c in &values {
        for v in &values {
            for name in [0, 1] {
                each(c, name, v, How::EveryRoom);
            }
        }
    }
    let mut random = Random::new(options.seed + 1);
    for number in 0..options.pairs / 3 {
        let tree = random_context(&mut random);
        let v = ValueTree::random_of_any_size(Parts::All, &mut random).bytes();
        let how = judged_sometimes(number);
        let c = tree.bytes();
        for _ in 0..2 {
            each(&c, first_name(&tree, &mut random), &v, how);
        }
    }
}

/// Receives a context, a path and a value.
type EachPut<'a> = dyn FnMut(&[u8], &[u16], &[u8], How) + 'a;

/// A value that is put into a context at a path; of the paths to small contexts all up to three
/// names, and `divisor` says how many random ones.
fn each_put(options: &Options, divisor: usize, each: &mut EachPut) {
    let short = all_paths(3, &[0, 1, 2]);
    for c in small(options) {
        for path in &short {
            for v in VALUES {
                each(&c, path, v, How::Plain);
            }
        }
    }
    let short = all_paths(3, &[0, 1]);
    let mut taken = one_in(3);
    for c in nested(options) {
        for path in short.iter().filter(|_| taken()) {
            each(&c, path, &[0x03, 7, 0], How::Judged);
        }
    }
    for v in others() {
        each(&[0x0B, 0, 0], &[1], &v, How::EveryRoom);
        each(&context_chain(1, 1, &v), &[1], &[0x0F], How::EveryRoom);
        each(&context_chain(1, 1, &v), &[1, 2], &v, How::EveryRoom);
        each(&v, &[1], &[0x0F], How::EveryRoom);
    }
    each_beginning(options, &mut |c| each(c, &[0], &[0x0F], How::Plain));
    each_beginning(options, &mut |v| each(&[0x0B, 0, 0], &[0], v, How::Plain));
    put_at_the_level(options, each);
    put_at_the_length(options, each);
    let mut random = Random::new(options.seed);
    for number in 0..options.pairs / divisor {
        let tree = random_context(&mut random);
        let v = ValueTree::random_of_any_size(Parts::All, &mut random).bytes();
        let c = tree.bytes();
        let how = judged_sometimes(number);
        let path = random_path(&tree, &mut random);
        each(&c, &path, &v, how);
        each(&c, &path[..path.len().min(1)], &v, how);
        // A value of the context itself, at another place.
        let other = random_path(&tree, &mut random);
        if let Ok(Some(part)) = contexts::search_deep(&c, &path[..path.len().min(31)]) {
            each(&c, &other, part.of(&c), how);
        }
    }
    for _ in 0..options.count / 400 {
        damaged_put(&mut random, each);
    }
}

/// Values of every level below paths of every length, into contexts of no, few and many levels.
fn put_at_the_level(options: &Options, each: &mut EachPut) {
    let beside =
        |first: &[u8], second: &[u8]| [&[0x0B, 2, 0, 0, 0], first, &[1, 0], second].concat();
    let contexts = [
        vec![0x0B, 0, 0],
        context_chain(1, 1, &[0x0F]),
        context_chain(1, 5, &[0x0F]),
        context_chain(1, 15, &[0x0B, 0, 0]),
        context_chain(1, 29, &[0x0B, 0, 0]),
        context_chain(1, 30, &[0x0F]),
        context_chain(1, 30, &[0x0B, 0, 0]),
        beside(&deep_value(30, 0), &[0x0F]),
        beside(&[0x0F], &deep_value(30, 0)),
        beside(&deep_value(29, 1), &context_chain(1, 3, &[0x0F])),
        context_chain(1, 1, &beside(&deep_value(29, 2), &[0x0F])),
    ];
    let mut taken = one_in(if is_quick(options) { 7 } else { 1 });
    for names in 0..=33 {
        for level in 1..=MAX_VALUE_LEVEL {
            let v = deep_value(level, names + level);
            let edge = (30..=32).contains(&(names + level));
            let how = if edge && names < 5 {
                How::EveryRoom
            } else {
                How::Plain
            };
            for c in contexts.iter().filter(|_| taken()) {
                each(c, &vec![1; names], &v, how);
                if (1..32).contains(&names) && edge {
                    let mut path = vec![1; names];
                    path[names - 1] = 2;
                    each(c, &path, &v, how);
                    path[0] = 0;
                    each(c, &path, &v, how);
                }
            }
        }
    }
}

/// Results of about 16,384 bytes: a new entry, new contexts, a new entry far inside, an entry
/// replaced, a value on the way replaced, nothing changed.
fn put_at_the_length(options: &Options, each: &mut EachPut) {
    // What stands before and after a long list.
    let frames: [(&[u8], &[u8]); 5] = [
        (&[0x0B, 1, 0, 1, 0], &[]),
        (&[0x0B, 2, 0, 0, 0, 0x0B, 1, 0, 5, 0, 0x0F, 1, 0], &[]),
        (&[0x0B, 1, 0, 1, 0, 0x0B, 1, 0, 1, 0], &[]),
        (&[0x0B, 2, 0, 1, 0], &[2, 0, 0x0B, 1, 0, 3, 0, 0x0B, 0, 0]),
        (&[0x0B, 2, 0, 1, 0], &[2, 0, 0x01, 1]),
    ];
    let paths: [&[u16]; 11] = [
        &[],
        &[0],
        &[2],
        &[2, 3],
        &[2, 3, 4, 5, 6],
        &[0, 5],
        &[0, 6],
        &[0, 5, 7],
        &[1, 2],
        &[2, 3, 4],
        &[0xFFFF],
    ];
    let values = [
        vec![0x0F],
        vec![0x00, 1],
        filled_list(100),
        filled_list(8_000),
    ];
    let mut taken = one_in(if is_quick(options) { 7 } else { 1 });
    let mut every_room = one_in(5);
    for (before, after) in frames {
        let c = |list: usize| [before, &filled_list(list), after].concat();
        for path in paths {
            for v in &values {
                let least = contexts::create_entries(&c(3), path, v, MAX_LENGTH);
                let shortest = least.map_or(0, |bytes| bytes.len());
                for length in MAX_LENGTH - 1..=MAX_LENGTH + 2 {
                    if taken() {
                        let how = if every_room() {
                            How::EveryRoom
                        } else {
                            How::Plain
                        };
                        each(&c(length - shortest + 3), path, v, how);
                    }
                }
            }
        }
    }
    for length in MAX_LENGTH - 1..=MAX_LENGTH + 1 {
        let longest = context_chain(1, 1, &filled_list(MAX_LENGTH - 5));
        each(&longest, &[1], &filled_list(length - 5), How::EveryRoom);
        each(&longest, &[1, 2], &filled_list(length - 10), How::EveryRoom);
        each(&longest, &[2], &filled_list(length), How::EveryRoom);
        each(&longest, &[2, 3], &filled_list(length), How::EveryRoom);
        each(
            &[0x0B, 0, 0],
            &[2],
            &filled_list(length - 5),
            How::EveryRoom,
        );
        each(&[0x0B, 0, 0], &[2], &filled_list(length), How::EveryRoom);
    }
    let lengths = if is_quick(options) { 1 } else { 4 };
    for c in wide_contexts(MAX_LENGTH - lengths..=MAX_LENGTH) {
        let count = u16::from_le_bytes([c[1], c[2]]);
        for name in [0, count / 2, count, 0xFFFF] {
            each(&c, &[name], &[0x00, 0], How::Plain);
        }
    }
}

/// The context damaged, the value damaged, and both; with a path, and with one that is too long.
fn damaged_put(random: &mut Random, each: &mut EachPut) {
    let tree = random_context(random);
    let path = random_path(&tree, random);
    let other = ValueTree::random(5, 1 + random.below(12), Parts::All, random);
    let (c, v) = (tree.draft(), other.draft());
    let (bad_c, bad_v) = (damaged(&tree, random), damaged(&other, random));
    for bad in &bad_c {
        each(bad, &path, &v.bytes, How::Plain);
        each(bad, &path, &bad_v[random.below(bad_v.len())], How::Plain);
    }
    for bad in &bad_v {
        each(&c.bytes, &path, bad, How::Plain);
        each(&[0x0F], &path, bad, How::Plain);
        each(&c.bytes, &[0; 32], bad, How::Plain);
    }
}

/// Receives two contexts.
type EachTwo<'a> = dyn FnMut(&[u8], &[u8], How) + 'a;

/// Arguments: two contexts.
pub fn with_other(options: &Options, each: &mut EachArgs) {
    let mut each = |c: &[u8], other: &[u8], how| each(&[c, other], how);
    let mut few = small_values(options.pair_length.min(3), &LEAVES, &[0, 1]);
    few.retain(|v| v[0] == 0x0B);
    for c in &few {
        for other in &few {
            each(c, other, How::Judged);
        }
    }
    let mut fewer = small_values(3, &LEAVES[..2], &[0, 1, 2]);
    fewer.retain(|v| v[0] == 0x0B);
    let mut taken = one_in(if is_quick(options) { 20 } else { 2 });
    for c in small(options) {
        for other in fewer.iter().filter(|_| taken()) {
            each(&c, other, How::Plain);
            each(other, &c, How::Plain);
        }
    }
    for (kind, other_kind) in [(0, 1), (1, 2), (2, 0)] {
        let theirs = choices(other_kind);
        for c in choices(kind) {
            for other in &theirs {
                each(&c, other, How::Judged);
            }
        }
    }
    for count in [0, 1, 2, 255, 256, 257, 513] {
        for other_count in [0, 1, 2, 255, 256, 257, 513] {
            for (first, step) in [(0, 1), (0, 2), (1, 2), (count as u16, 1), (0x0080, 3)] {
                let c = numbered(count, 0, if step == 2 { 2 } else { 1 }, &[0x0F]);
                let other = numbered(other_count, first, step, &[0x01, 1]);
                each(&c, &other, How::Plain);
            }
        }
    }
    each_beginning(options, &mut |c| each(c, &[0x0B, 0, 0], How::Plain));
    each_beginning(options, &mut |other| each(&[0x0B, 0, 0], other, How::Plain));
    for v in others() {
        each(&v, &[0x0B, 0, 0], How::EveryRoom);
        each(&[0x0B, 1, 0, 1, 0, 0x0F], &v, How::EveryRoom);
        each(&v, &[0x0F], How::EveryRoom);
        let c = context_chain(1, 1, &v);
        each(&c, &context_chain(1, 1, &[0x0F]), How::EveryRoom);
        each(&context_chain(1, 1, &[0x0F]), &c, How::EveryRoom);
    }
    let mut values = refused_values();
    values.extend([vec![0x0B, 0, 0], vec![0x0F], vec![0x0A, 1, 0, 0x0B, 0, 0]]);
    values.push(context_chain(1, 30, &[0x0F]));
    for c in &values {
        for other in &values {
            each(c, other, How::EveryRoom);
        }
    }
    let deep = deep_contexts();
    for c in &deep {
        for other in &deep {
            each(c, other, How::Plain);
        }
    }
    merged_at_the_length(options, &mut each);
    let mut random = Random::new(options.seed);
    for number in 0..options.pairs / 3 {
        let tree = random_context(&mut random);
        let c = tree.bytes();
        let how = judged_sometimes(number);
        each(&c, &random_context(&mut random).bytes(), how);
        let near = near_value(&tree, Parts::All, &mut random).bytes();
        each(&c, &near, how);
        each(&near, &c, how);
    }
    for _ in 0..options.count / 400 {
        let (tree, other) = (random_context(&mut random), random_context(&mut random));
        let (c, o) = (tree.bytes(), other.bytes());
        let bad_c = damaged(&tree, &mut random);
        let bad_o = damaged(&other, &mut random);
        for bad in &bad_c {
            each(bad, &o, How::Plain);
            each(bad, &bad_o[random.below(bad_o.len())], How::Plain);
        }
        for bad in &bad_o {
            each(&c, bad, How::Plain);
            each(&[0x0F], bad, How::Plain);
        }
    }
}

/// Two contexts whose entries have about 16,384 bytes together: beside each other, at equal names,
/// with many entries in turn.
fn merged_at_the_length(options: &Options, each: &mut EachTwo) {
    for length in MAX_LENGTH - 1..=MAX_LENGTH + 2 {
        for of_other in [3, 100, 8_000, length - 11] {
            let theirs = filled_list(of_other);
            let c = context_chain(1, 1, &filled_list(length - 7 - of_other));
            for name in [0, 2] {
                let other = context_chain(name, 1, &theirs);
                each(&c, &other, How::EveryRoom);
                each(&other, &c, How::EveryRoom);
            }
            // One of two entries is replaced.
            let mut more = context_chain(1, 1, &filled_list(length - 7 - of_other));
            more[1] = 2;
            more.extend([2, 0, 0x0F]);
            let other = context_chain(2, 1, &theirs);
            each(&more, &other, How::EveryRoom);
            each(&other, &more, How::EveryRoom);
        }
        let longest = context_chain(1, 1, &filled_list(MAX_LENGTH - 5));
        let other = context_chain(1, 1, &filled_list(length - 5));
        each(&longest, &other, How::EveryRoom);
        each(
            &longest,
            &context_chain(2, 1, &filled_list(100)),
            How::EveryRoom,
        );
        // Names in turn, equal names, and names behind each other: three bytes an entry.
        let half = (length - 3) / 6;
        let rest = (length - 3) / 3 - half;
        let mut how = How::EveryRoom;
        for (first, step) in [(1, 2), (0, 2), (2 * half as u16, 1)] {
            let c = numbered(half, 0, 2, &[0x0F]);
            let mut other = numbered(rest - 1, first, step, &[0x0F]);
            // The last entry makes up the length.
            let count = (rest as u16).to_le_bytes();
            other[1..3].copy_from_slice(&count);
            other.extend([0xFF, 0xFF]);
            other.extend(match (length - 3) % 3 {
                0 => &[0x0F][..],
                1 => &[0x00, 0],
                _ => &[0x03, 7, 0],
            });
            each(&c, &other, how);
            each(&other, &c, how);
            if is_quick(options) {
                how = How::Plain;
            }
        }
    }
}

/// Receives a context, a name and the name of a parent.
type EachMove<'a> = dyn FnMut(&[u8], u16, u16, How) + 'a;

/// Arguments: a context, a name and the name of a parent.
pub fn with_two_names(options: &Options, each: &mut EachArgs) {
    let mut each = |c: &[u8], name: u16, parent: u16, how| {
        each(&[c, &name.to_le_bytes(), &parent.to_le_bytes()], how)
    };
    for c in small(options) {
        for name in 0..3 {
            for parent in 0..3 {
                each(&c, name, parent, How::Judged);
            }
        }
    }
    for c in nested(options) {
        for name in 0..2 {
            for parent in 0..2 {
                each(&c, name, parent, How::Judged);
            }
        }
    }
    for kind in 0..3 {
        for c in choices(kind) {
            for name in NAMES.into_iter().chain([2]) {
                for parent in NAMES.into_iter().chain([2, 0xFF00]) {
                    each(&c, name, parent, How::Plain);
                }
            }
        }
    }
    each_beginning(options, &mut |c| each(c, 0, 1, How::Plain));
    for v in refused_values().iter().chain(&others()) {
        each(v, 0, 1, How::EveryRoom);
        each(v, 1, 1, How::EveryRoom);
        for parent in [1, 2] {
            each(&context_chain(1, 1, v), 1, parent, How::EveryRoom);
        }
    }
    moved_at_the_limits(options, &mut each);
    let lengths = if is_quick(options) { 1 } else { 4 };
    for c in wide_contexts(MAX_LENGTH - lengths..=MAX_LENGTH) {
        let count = u16::from_le_bytes([c[1], c[2]]);
        for name in [0, count / 2, count - 1, count] {
            for parent in [0, count / 2, 0xFFFF] {
                each(&c, name, parent, How::Plain);
            }
        }
    }
    let mut random = Random::new(options.seed);
    for number in 0..options.pairs / 3 {
        let tree = random_context(&mut random);
        let c = tree.bytes();
        let how = judged_sometimes(number);
        for _ in 0..3 {
            let name = first_name(&tree, &mut random);
            let parent = match random.below(5) {
                0 => name,
                _ => first_name(&tree, &mut random),
            };
            each(&c, name, parent, how);
        }
        if number % 1_000 == 0 {
            let [name, parent] = [0; 2].map(|_| first_name(&tree, &mut random));
            let damaged: &mut Each = &mut |c| each(c, name, parent, How::Plain);
            each_damage(&tree.draft(), &mut random, damaged);
        }
    }
}

/// Moves that pass the limit of level or of length, or nearly: to a parent that is absent, a leaf, an
/// empty context, one that has the name, a deep one, the name itself.
fn moved_at_the_limits(options: &Options, each: &mut EachMove) {
    let parents = [
        vec![],
        vec![0x0F],
        filled_list(20),
        vec![0x0B, 0, 0],
        context_chain(1, 1, &[0x0F]),
        context_chain(0, 1, &[0x01, 1]),
        context_chain(5, 1, &filled_list(9)),
        context_chain(1, 29, &[0x0F]),
        deep_value(30, 0),
    ];
    // The entry with name 1 and the parent with name 2 or 0, which is absent where it has no bytes.
    let with_parent = |v: &[u8], parent: &[u8], name: u8| match (parent, name) {
        ([], _) => context_chain(1, 1, v),
        (_, 0) => [&[0x0B, 2, 0, 0, 0], parent, &[1, 0], v].concat(),
        _ => [&[0x0B, 2, 0, 1, 0], v, &[2, 0], parent].concat(),
    };
    for level in 1..=MAX_VALUE_LEVEL {
        for kind in 0..3 {
            let v = deep_value(level, kind);
            let edge = (28..=30).contains(&level);
            let how = if edge { How::EveryRoom } else { How::Plain };
            for parent in &parents {
                for name in [0, 2] {
                    let c = with_parent(&v, parent, name);
                    each(&c, 1, name.into(), how);
                    each(&c, name.into(), 1, how);
                    each(&c, 1, 1, how);
                    each(&c, 1, 3, how);
                }
            }
        }
    }
    let mut taken = one_in(if is_quick(options) { 7 } else { 1 });
    let mut every_room = one_in(3);
    for parent in &parents {
        for name in [0, 2] {
            for target in MAX_LENGTH - 8..=MAX_LENGTH + 1 {
                if !taken() {
                    continue;
                }
                // The context has so many bytes before it is changed, the long list is the entry.
                let without = with_parent(&[], parent, name).len();
                let c = with_parent(&filled_list(target - without), parent, name);
                let how = if every_room() {
                    How::EveryRoom
                } else {
                    How::Plain
                };
                each(&c, 1, name.into(), how);
                each(&c, 1, 1, How::Plain);
                each(&c, 1, 3, How::Plain);
                each(&c, name.into(), 3, How::Plain);
            }
        }
    }
    for target in MAX_LENGTH - 8..=MAX_LENGTH + 1 {
        // The long list is in the parent, or beside both.
        for inner in [1, 5] {
            let parent = context_chain(inner, 1, &filled_list(target - 13));
            each(&with_parent(&[0x0F], &parent, 2), 1, 2, How::EveryRoom);
        }
        let list = filled_list(target - 14);
        let c = [&[0x0B, 3, 0, 1, 0, 0x0F, 2, 0, 0x00, 1, 7, 0], &list[..]].concat();
        each(&c, 1, 2, How::EveryRoom);
        each(&c, 2, 1, How::EveryRoom);
        each(&c, 7, 1, How::EveryRoom);
        each(&c, 8, 1, How::EveryRoom);
        each(&c, 1, 8, How::EveryRoom);
    }
}

/// Names whose low or high bytes are equal.
pub const NAMES: [u16; 6] = [0, 1, 0x00FF, 0x0100, 0x0101, 0xFFFF];

/// Values that are put into small contexts.
const VALUES: [&[u8]; 5] = [
    &[0x00, 1],
    &[0x0B, 0, 0],
    &[0x0B, 1, 0, 1, 0, 0x01, 1],
    &[0x0A, 2, 0, 0x0F, 0x0D, 85],
    &[0x10, 250, 0, 0, 0, 0, 0, 0, 0, 2],
];

/// How many names a path has that is too long or nearly, or whose count starts again.
const LONG_PATHS: [usize; 12] = [
    30, 31, 32, 33, 63, 64, 255, 256, 65_535, 65_536, 65_537, 65_567,
];

/// Paths of no, few, 31 and more names.
fn few_paths() -> [Vec<u16>; 6] {
    [0, 1, 2, 31, 32, 33].map(|names| vec![1; names])
}

/// The bytes of a path.
pub fn spelled(path: &[u16]) -> Vec<u8> {
    path.iter().flat_map(|name| name.to_le_bytes()).collect()
}

/// Every path of up to so many of the names.
fn all_paths(most: usize, names: &[u16]) -> Vec<Vec<u16>> {
    let mut all = vec![vec![]];
    let mut start = 0;
    for _ in 0..most {
        let end = all.len();
        for place in start..end {
            for name in names {
                all.push([&all[place][..], &[*name]].concat());
            }
        }
        start = end;
    }
    all
}

/// All contexts with few nodes.
fn small(options: &Options) -> Vec<Vec<u8>> {
    let mut all = small_values(options.pair_length, &LEAVES, &[0, 1]);
    all.retain(|v| v[0] == 0x0B);
    all
}

/// All contexts with one node more, over fewer leaves.
fn nested(options: &Options) -> Vec<Vec<u8>> {
    let mut all = small_values(options.pair_length + 1, &LEAVES[..2], &[0, 1]);
    all.retain(|v| v[0] == 0x0B);
    all
}

/// A context for each choice of the names; `kind` says which values stand at them.
fn choices(kind: usize) -> Vec<Vec<u8>> {
    let values: [&[u8]; 3] = [&[0x0F], &[0x0B, 1, 0, 1, 0, 0x01, 1], &[0x03, 7, 0]];
    let context = |choice: usize| {
        let chosen: Vec<usize> = (0..NAMES.len()).filter(|p| choice >> p & 1 == 1).collect();
        let mut c = vec![0x0B, chosen.len() as u8, 0];
        for place in chosen {
            c.extend(NAMES[place].to_le_bytes());
            c.extend(values[(place + kind) % values.len()]);
        }
        c
    };
    (0..1 << NAMES.len()).map(context).collect()
}

/// A context of `count` equal values, with names from `first` on at this distance.
fn numbered(count: usize, first: u16, step: u16, v: &[u8]) -> Vec<u8> {
    let mut c = vec![0x0B];
    c.extend((count as u16).to_le_bytes());
    for number in 0..count as u16 {
        c.extend((first + step * number).to_le_bytes());
        c.extend(v);
    }
    c
}

/// Contexts of levels around the limit.
fn deep_contexts() -> Vec<Vec<u8>> {
    let mut all = vec![];
    for count in MAX_VALUE_LEVEL - 3..=MAX_VALUE_LEVEL {
        for end in [
            &[0x0F][..],
            &[0x0B, 0, 0],
            &[0x0A, 1, 0, 0x00, 1],
            &[0x0E, 0x20],
        ] {
            all.push(context_chain(1, count, end));
        }
        let deep = context_chain(1, count - 1, &[0x0F]);
        all.push([&[0x0B, 2, 0, 0, 0, 0x01, 1, 1, 0], &deep[..]].concat());
        all.push([&[0x0B, 2, 0, 1, 0], &deep[..], &[2, 0, 0x01, 1]].concat());
    }
    all
}

/// Contexts of many entries with each of these lengths.
fn wide_contexts(lengths: std::ops::RangeInclusive<usize>) -> Vec<Vec<u8>> {
    let of_length = |length| [long_records(Kind::Value, length), long_data(length)].concat();
    let mut all: Vec<Vec<u8>> = lengths.flat_map(of_length).collect();
    all.retain(|v| v[0] == 0x0B);
    all
}

/// A value of this level: of lists, of contexts, or of a type.
fn deep_value(level: usize, kind: usize) -> Vec<u8> {
    match kind % 3 {
        0 => [&[0x0A, 1, 0].repeat(level - 1), &[0x0F][..]].concat(),
        1 => context_chain(1, level - 1, &[0x0F]),
        _ if level == 1 => vec![0x00, 3],
        _ => [&[0x0E][..], &[0x2A].repeat(level - 2), &[0x20]].concat(),
    }
}

/// Values that are no contexts: each kind of leaf, small lists and ranges, also of contexts.
fn others() -> Vec<Vec<u8>> {
    let mut all = small_values(2, &LEAVES, &[0, 1]);
    let mut taken = one_in(4);
    all.extend(leaves().into_iter().filter(|_| taken()));
    all.extend([
        vec![0x0A, 1, 0, 0x0B, 1, 0, 1, 0, 0x0F],
        vec![0x09, 0, 0, 0x0B, 0, 0, 0x0B, 0, 0],
        vec![0x0E, 0x2C, 1, 0, 1, 0, 0x20],
        vec![0x0D, 0x0B],
        vec![0x0C, 0, 0, 0, 0x22],
    ]);
    all.retain(|v| v[0] != 0x0B);
    all
}

/// Everything that starts as a context, over a small alphabet.
fn each_beginning(options: &Options, each: &mut Each) {
    for length in 0..=options.alphabet_length.min(4) {
        each_string(&[0, 1, 2, 0x0A, 0x0B, 0x0F], length, &mut |rest| {
            each(&[&[0x0B], rest].concat())
        });
    }
}

/// The name with which a random path starts.
fn first_name(tree: &ValueTree, random: &mut Random) -> u16 {
    random_path(tree, random).first().copied().unwrap_or(0)
}

/// The theorems are judged on some of the random cases.
fn judged_sometimes(number: usize) -> How {
    if number.is_multiple_of(4) {
        How::Judged
    } else {
        How::Plain
    }
}

/// Damaged copies of a value.
fn damaged(tree: &ValueTree, random: &mut Random) -> Vec<Vec<u8>> {
    let mut copies = vec![];
    let keep: &mut Each = &mut |bytes| copies.push(bytes.to_vec());
    each_damage(&tree.draft(), random, keep);
    copies
}
