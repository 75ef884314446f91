//! The pass requests of the week: nested contexts after the needs of one mission each, some of them
//! one name short, with a null or another kind of value somewhere, or malformed. Link margins are
//! decimal numbers, some of them whole.

use crate::names::number;
use feel_cases::{Random, ValueTree, decimal, each_damage, null, whole as whole_number};

/// How many.
pub const REQUESTS: usize = 1_412;

/// Monday, the start of the week, in seconds.
const MONDAY: i64 = 1_794_182_400;

const DAY: i64 = 86_400;

/// All of them.
pub fn requests(random: &mut Random) -> Vec<Vec<u8>> {
    (0..REQUESTS).map(|i| request(i, random)).collect()
}

/// One request: most are as the mission wants them.
fn request(i: usize, random: &mut Random) -> Vec<u8> {
    let whole = record(i, random);
    match random.below(100) {
        0..72 => in_decibels(whole).bytes(),
        72..82 => in_decibels(changed(&whole, random, Change::Drop)).bytes(),
        82..87 => in_decibels(changed(&whole, random, Change::Null)).bytes(),
        87..93 => in_decibels(changed(&whole, random, Change::Kind)).bytes(),
        _ => {
            // As many random numbers are taken as with whole margins, and the requests behind this one
            // do not depend on how margins are written.
            malformed(&whole, random);
            malformed(&in_decibels(whole), &mut Random::new(i as u64))
        }
    }
}

/// The record with its link margins in decibels.
fn in_decibels(record: ValueTree) -> ValueTree {
    let ValueTree::Context(mut entries) = record else {
        return record;
    };
    for (name, margins) in &mut entries {
        if *name != number("link margins") {
            continue;
        }
        match margins {
            ValueTree::Context(entries) => entries.iter_mut().for_each(|(_, v)| write_margin(v)),
            ValueTree::List(items) => items.iter_mut().for_each(write_margin),
            _ => {}
        }
    }
    ValueTree::Context(entries)
}

/// Writes a margin in decibels where hundredths of a decibel stand: with one decimal, with two, with
/// two in steps of a quarter, or as a whole number. Equal margins may be written differently.
fn write_margin(v: &mut ValueTree) {
    let ValueTree::Leaf(bytes) = v else {
        return;
    };
    let [0x02, operands @ ..] = &bytes[..] else {
        return;
    };
    let hundredths = i64::from_le_bytes(operands.try_into().expect("eight bytes"));
    *bytes = match hundredths.rem_euclid(10) {
        0..=3 => decimal(hundredths.div_euclid(10), 1),
        4..=6 => decimal(hundredths, 2),
        7 | 8 => decimal(hundredths - hundredths.rem_euclid(25), 2),
        _ => whole_number(hundredths.div_euclid(100)),
    };
}

/// The record of a request. Which parts it has depends on the house that sends it.
fn record(i: usize, random: &mut Random) -> ValueTree {
    let day = random.below(7) as i64;
    let rise = MONDAY + day * DAY + random.below(DAY as usize) as i64;
    let count = 1 + random.below(4);
    let mut entries = vec![
        ("antenna", antenna(random)),
        ("confirmed", boolean(random.below(3) != 0)),
        ("passes", passes(rise, count, random)),
        ("request", key(0x02, 40_000 + i as i64)),
        ("spacecraft", spacecraft(random)),
    ];
    entries.push(match random.below(8) {
        0 => ("window", windows(rise, random)),
        _ => ("window", window(rise, random)),
    });
    match random.below(10) {
        0..6 => entries.push(("link margins", margins(random))),
        6..9 => entries.push(("link margins", numbers(count, random))),
        _ => {}
    }
    if random.below(3) != 0 {
        entries.push(("contact", text(200 + random.below(40) as u16)));
        entries.push(("handover", stations(random)));
        entries.push(("validity", key(0x08, 1 + random.below(24) as i64)));
    }
    if random.below(2) == 0 {
        entries.push(("command link", command_link(random)));
        entries.push(("day", key(0x04, 20_766 + day)));
        entries.push(("priority", key(0x02, 1 + random.below(5) as i64)));
        entries.push(("purpose", text(300 + random.below(12) as u16)));
    }
    context(entries)
}

fn antenna(random: &mut Random) -> ValueTree {
    context(vec![
        ("band", text(10 + random.below(3) as u16)),
        ("polarisation", text(20 + random.below(4) as u16)),
        ("station", text(30 + random.below(6) as u16)),
    ])
}

fn spacecraft(random: &mut Random) -> ValueTree {
    let mut entries = vec![
        ("band", text(10 + random.below(3) as u16)),
        ("mission", text(40 + random.below(9) as u16)),
        (
            "spacecraft id",
            key(0x02, 50_000 + random.below(900) as i64),
        ),
    ];
    if random.below(4) == 0 {
        entries.push(("operator", text(60 + random.below(5) as u16)));
    }
    context(entries)
}

fn margins(random: &mut Random) -> ValueTree {
    context(vec![
        ("downlink", hundredths(random)),
        ("uplink", hundredths(random)),
    ])
}

/// A margin in hundredths of a decibel, as a whole number.
fn hundredths(random: &mut Random) -> ValueTree {
    key(0x02, random.below(1_200) as i64 - 200)
}

fn numbers(count: usize, random: &mut Random) -> ValueTree {
    ValueTree::List((0..count).map(|_| hundredths(random)).collect())
}

fn passes(rise: i64, count: usize, random: &mut Random) -> ValueTree {
    let mut at = rise;
    let mut pass = || {
        at += 5_700 + random.below(300) as i64;
        let mut entries = vec![
            ("duration", key(0x07, 300 + random.below(500) as i64)),
            ("orbit", key(0x02, (at - MONDAY) / 5_800 + 9_000)),
            ("rise", key(0x06, at)),
        ];
        if random.below(4) != 0 {
            entries.push(("azimuth", key(0x02, random.below(360) as i64)));
            entries.push(("elevation", key(0x02, 5 + random.below(85) as i64)));
        }
        context(entries)
    };
    ValueTree::List((0..count).map(|_| pass()).collect())
}

fn window(from: i64, random: &mut Random) -> ValueTree {
    let to = from + 600 + random.below(40_000) as i64;
    span(0x06, from, to, random)
}

fn windows(from: i64, random: &mut Random) -> ValueTree {
    let count = 1 + random.below(3) as i64;
    ValueTree::List((0..count).map(|i| window(from + i * DAY, random)).collect())
}

fn stations(random: &mut Random) -> ValueTree {
    let count = random.below(3);
    ValueTree::List((0..count).map(|i| text(30 + i as u16)).collect())
}

fn command_link(random: &mut Random) -> ValueTree {
    let low = 2_025_000 + random.below(80_000) as i64;
    context(vec![
        ("bit rate", key(0x02, 4_000 << random.below(4))),
        ("frequency", span(0x02, low, low + 500, random)),
    ])
}

/// A closed or half-open range of two keys.
fn span(command: u8, from: i64, to: i64, random: &mut Random) -> ValueTree {
    let interval = [1, 1 + random.below(2) as u8];
    ValueTree::Range(interval, Box::new([key(command, from), key(command, to)]))
}

/// A value whose operand is a key of 64 bits.
fn key(command: u8, key: i64) -> ValueTree {
    let mut bytes = vec![command];
    bytes.extend(key.to_le_bytes());
    ValueTree::Leaf(bytes)
}

fn text(number: u16) -> ValueTree {
    let [low, high] = number.to_le_bytes();
    ValueTree::Leaf(vec![0x03, low, high])
}

fn boolean(truth: bool) -> ValueTree {
    ValueTree::Leaf(vec![0x01, u8::from(truth)])
}

/// A context of these entries, by the numbers of their names.
fn context(entries: Vec<(&str, ValueTree)>) -> ValueTree {
    let mut entries: Vec<(u16, ValueTree)> = entries
        .into_iter()
        .map(|(name, value)| (number(name), value))
        .collect();
    entries.sort_by_key(|(name, _)| *name);
    ValueTree::Context(entries)
}

/// What is done to one entry of a record, or of a context or list inside it.
#[derive(Clone, Copy)]
enum Change {
    Drop,
    Null,
    Kind,
}

fn changed(tree: &ValueTree, random: &mut Random, change: Change) -> ValueTree {
    let mut copy = tree.clone();
    change_in(&mut copy, random, change);
    copy
}

fn change_in(tree: &mut ValueTree, random: &mut Random, change: Change) {
    match tree {
        ValueTree::Context(entries) if !entries.is_empty() => {
            let place = random.below(entries.len());
            let goes_in = matches!(entries[place].1, ValueTree::Context(_) | ValueTree::List(_));
            if goes_in && random.below(2) == 0 {
                change_in(&mut entries[place].1, random, change);
                return;
            }
            match change {
                Change::Drop => {
                    entries.remove(place);
                }
                Change::Null => entries[place].1 = null(),
                Change::Kind => entries[place].1 = text(999),
            }
        }
        ValueTree::List(items) if !items.is_empty() => {
            let place = random.below(items.len());
            change_in(&mut items[place], random, change);
        }
        other => *other = null(),
    }
}

/// A damaged copy that is not accepted.
fn malformed(tree: &ValueTree, random: &mut Random) -> Vec<u8> {
    let mut copies = vec![];
    each_damage(&tree.draft(), random, &mut |copy| {
        if feel_form::read_value(copy).is_err() {
            copies.push(copy.to_vec());
        }
    });
    let place = random.below(copies.len());
    copies.swap_remove(place)
}
