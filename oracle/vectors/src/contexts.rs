//! The groups of the calls over contexts. A name has two bytes, a path two for each name.

use crate::list::{Answer, Call, Case, Group, bytes};
use crate::pairs::arguments;
use feel_cases::{Parts, Random, ValueTree, near_value, random_context, random_path};

pub fn groups() -> Vec<Group> {
    let group = |call, words, lines: &[String]| Group::new(call, words, exact(call, lines));
    let mut groups = vec![];
    let by_name = |call| {
        vec![
            group(call, "names", &names()),
            group(call, "level 31", &deep_names()),
            Group::new(call, "random contexts", random(call)),
            group(call, "no contexts", &no_contexts("0100")),
            Group::new(call, "refusals", refused_alone(call, "0100")),
        ]
    };
    let by_path = |call| {
        vec![
            group(call, "paths", &paths()),
            group(call, "level 31 and 31 names", &deep_paths()),
            Group::new(call, "random contexts", random(call)),
            group(call, "no contexts", &no_contexts("0100 0200")),
            Group::new(call, "refusals in order", refused_paths(call)),
        ]
    };
    let of_one = |call| {
        vec![
            group(call, "contexts", &contexts()),
            Group::new(call, "random contexts", random(call)),
            group(call, "no contexts", &no_contexts("")),
            Group::new(call, "refusals", refused_alone(call, "")),
        ]
    };
    groups.extend(by_name(Call::GetEntry));
    groups.extend(by_path(Call::SearchDeep));
    groups.extend(of_one(Call::GetFirst));
    groups.extend(by_name(Call::ContainsEntry));
    groups.extend(by_path(Call::ContainsDeep));
    groups.extend(by_name(Call::IsContext));
    groups.extend(of_one(Call::IsEmpty));
    groups.extend(of_one(Call::Len));
    for call in [Call::CreateEntries, Call::ApplyEntries] {
        let lines = ["0B 0100 0100 01 01 | 0100 0200 | 0F"];
        groups.extend([
            group(call, "examples", &lines.map(str::to_string)),
            group(call, "paths", &put()),
            group(call, "level 31 and 31 names", &deep_put()),
            Group::new(call, "random contexts", random(call)),
            Group::new(call, "output", outputs(call, &PUT_OUTPUTS)),
            Group::new(call, "refusals in order", refused_put(call)),
        ]);
    }
    for call in [Call::Zip, Call::Overwrite] {
        groups.extend([
            group(call, "names", &two_contexts()),
            group(call, "level 31", &two_deep()),
            Group::new(call, "random contexts", random(call)),
            Group::new(call, "output", outputs(call, &TWO_OUTPUTS)),
            Group::new(call, "16,384 bytes", long_two(call)),
            Group::new(call, "refusals in order", refused_two(call)),
        ]);
    }
    let call = Call::MoveEntry;
    groups.extend([
        group(call, "names", &moves()),
        group(call, "level 31", &deep_moves()),
        Group::new(call, "random contexts", random(call)),
        Group::new(call, "output", outputs(call, &MOVE_OUTPUTS)),
        group(call, "no contexts", &no_contexts("0100 | 0200")),
        Group::new(call, "refusals", refused_alone(call, "0100 | 0200")),
    ]);
    let call = Call::SetEntry;
    groups.extend([
        group(call, "names", &set()),
        group(call, "level 31", &deep_set()),
        Group::new(call, "random contexts", random(call)),
        Group::new(call, "output", outputs(call, &SET_OUTPUTS)),
        Group::new(call, "refusals in order", refused_set()),
    ]);
    for call in [Call::RemoveEntry, Call::SetNull] {
        groups.extend([
            group(call, "names", &names()),
            group(call, "level 31", &deep_names()),
            Group::new(call, "random contexts", random(call)),
            Group::new(call, "output", outputs(call, &NAME_OUTPUTS)),
            group(call, "no contexts", &no_contexts("0100")),
            Group::new(call, "refusals", refused_alone(call, "0100")),
        ]);
    }
    groups.push(Group::new(Call::SetNull, "16,384 bytes", long_null()));
    groups
}

/// {1: true, 2: {3: Irrelevant}}
const TWO: &str = "0B 0200 0100 01 01 0200 0B 0100 0300 0F";

/// {1: {1: {1: null}}, 2: [{}], 65535: a text}
const NESTED: &str =
    "0B 0300 0100 0B 0100 0100 0B 0100 0100 00 01 0200 0A 0100 0B 0000 FFFF 03 0700";

/// Names whose low or high bytes are equal.
const NEAR: &str = "0B 0500 0000 01 00 0100 0F FF00 0B 0000 0001 00 02 FFFF 0B 0100 0001 0F";

/// A value of every kind, with the names 0 to 16.
const KINDS: &str = "0B 1100 0000 00 03 0100 01 01 0200 02 0100000000000000 0300 03 0B00 \
0400 04 0200000000000000 0500 05 0300000000000000 0600 06 0400000000000000 0700 07 0500000000000000 \
0800 08 FFFFFFFFFFFFFFFF 0900 09 00 02 00 00 01 01 0A00 0A 0200 0F 0B 0000 0B00 0B 0100 0B00 0F \
0C00 0C 01 3412 22 0900 2C 0100 0B00 23 0D00 0D 0B 0E00 0E 2C 0100 0B00 20 0F00 0F \
1000 10 FA00000000000000 02";

/// Each name beside each context.
fn of_each(contexts_and_names: &[(&str, &[&str])]) -> Vec<String> {
    let mut lines = vec![];
    for (c, names) in contexts_and_names {
        lines.extend(names.iter().map(|name| format!("{c} | {name}")));
    }
    lines
}

fn names() -> Vec<String> {
    of_each(&[
        ("0B 0000", &["0000", "0500"]),
        (
            "0B 0100 0500 01 01",
            &["0500", "0400", "0600", "0005", "0000", "FFFF"],
        ),
        (TWO, &["0000", "0100", "0200", "0300"]),
        (NESTED, &["0100", "0200", "0300", "FEFF", "FFFF"]),
        (
            NEAR,
            &[
                "0000", "0100", "FF00", "0001", "FFFF", "0200", "FE00", "00FF", "0101", "FEFF",
            ],
        ),
        (KINDS, &["0000", "0100", "0200", "0800", "0900"]),
        (
            KINDS,
            &["0A00", "0B00", "0C00", "0D00", "0E00", "0F00", "1000"],
        ),
    ])
}

fn paths() -> Vec<String> {
    of_each(&[
        ("0B 0000", &["", "0500", "0500 0500"]),
        (
            "0B 0100 0500 01 01",
            &["", "0500", "0400", "0005", "0500 0500"],
        ),
        (
            TWO,
            &[
                "",
                "0100",
                "0200",
                "0300",
                "0100 0300",
                "0200 0100",
                "0200 0300",
                "0200 0400",
                "0200 0300 0300",
            ],
        ),
        (
            NESTED,
            &[
                "0100",
                "0100 0100",
                "0100 0100 0100",
                "0100 0100 0100 0100",
                "0100 0200",
                "0200",
                "0200 0000",
                "FFFF",
                "FFFF 0700",
            ],
        ),
        (
            NEAR,
            &["FF00", "FF00 0000", "FFFF 0001", "FFFF 0100", "0001 0001"],
        ),
        (KINDS, &["0B00 0B00", "0C00 0B00", "0E00 0B00", "0D00 0B00"]),
        (KINDS, &["0A00 0B00", "0F00", "0B00", "1000", "1000 0B00"]),
    ])
}

fn contexts() -> Vec<String> {
    let mut lines = [
        "0B 0000",
        "0B 0100 0000 0B 0000",
        "0B 0100 0500 01 01",
        "0B 0100 FFFF 00 02",
        "0B 0100 0100 0A 0000",
        "0B 0100 0100 0D 0B",
        "0B 0200 0000 09 00 03 0F 0F 0100 0F",
        "0B 0200 0000 0C 01 0000 22 0900 2A 23 FFFF 0F",
        "0B 0100 0000 0E 2C 0100 0000 22",
        "0B 0200 0100 0B 0200 0100 0F 0200 0F 0200 0F",
        "0B 0300 0000 0F 0100 0F 0200 0F",
        TWO,
        NESTED,
        NEAR,
        KINDS,
    ]
    .map(str::to_string)
    .to_vec();
    lines.extend([29, 30].map(|count| chain(count, "0F")));
    lines.push(chain(30, "0B 0000"));
    let entry = |number: u16| format!("{:04X} 0F", number.swap_bytes());
    let entries: Vec<String> = (0..256).map(entry).collect();
    lines.push(format!("0B 0001 {}", entries.join(" ")));
    lines
}

/// Contexts inside each other, each with the name 1; so many of them around the value.
fn chain(count: usize, v: &str) -> String {
    format!("{}{v}", "0B 0100 0100 ".repeat(count))
}

/// Lists inside each other, so many of them.
fn lists(count: usize) -> String {
    format!("{}0F", "0A 0100 ".repeat(count))
}

/// A path of so many equal names.
fn ones(count: usize) -> String {
    "0100 ".repeat(count)
}

fn deep_names() -> Vec<String> {
    let mut lines = vec![];
    for c in [chain(29, "0F"), chain(30, "0F"), chain(30, "0B 0000")] {
        lines.extend(["0000", "0100", "0200"].map(|name| format!("{c} | {name}")));
    }
    let beside = format!("0B 0200 0100 {} 0200 01 01", lists(29));
    lines.extend(["0100", "0200"].map(|name| format!("{beside} | {name}")));
    lines
}

fn deep_paths() -> Vec<String> {
    let mut lines = vec![];
    for count in [28, 29, 30, 31, 32] {
        lines.push(format!("{} | {}", chain(30, "0F"), ones(count)));
        lines.push(format!("{} | {}", chain(30, "0B 0000"), ones(count)));
    }
    for count in [29, 30, 31] {
        lines.push(format!("{} | {} 0200", chain(30, "0F"), ones(count - 1)));
        lines.push(format!("{} | 0200 {}", chain(30, "0F"), ones(count - 1)));
    }
    for count in [31, 32, 33, 64] {
        lines.push(format!("0B 0000 | {}", ones(count)));
    }
    lines
}

/// Values of other kinds, some with contexts inside, with these arguments behind them.
fn no_contexts(rest: &str) -> Vec<String> {
    let values = [
        "00 00",
        "01 01",
        "02 0B00000000000000",
        "03 0B00",
        "08 0B00000000000000",
        "09 00 00 0B 0000 0B 0000",
        "0A 0000",
        "0A 0100 0B 0100 0100 0F",
        "0C 00 0B00 2C 0000",
        "0D 0B",
        "0E 2C 0100 0100 20",
        "0F",
    ];
    values.map(|v| with_rest(v, rest)).to_vec()
}

fn with_rest(c: &str, rest: &str) -> String {
    match rest {
        "" => c.to_string(),
        _ => format!("{c} | {rest}"),
    }
}

/// A value for each of the refusals 1 to 5.
fn refused() -> [String; 6] {
    [
        String::new(),
        "10".to_string(),
        "0B 0100 0100 00 04".to_string(),
        "0B 0200 0100 0F 0100 0F".to_string(),
        chain(31, "0F"),
        "0B 0000 0F".to_string(),
    ]
}

/// The refusals of the context, with no room and with much.
fn refused_alone(call: Call, rest: &str) -> Vec<Case> {
    let mut lines = refused().map(|c| with_rest(&c, rest)).to_vec();
    lines.push(with_rest("0B 0100 0100", rest));
    lines.push(with_rest("0B 0200 0200 0F 0100 0F", rest));
    lines.push(with_rest(&chain(31, "0B 0000"), rest));
    lines.push(with_rest("0F 0B", rest));
    lines.push(with_rest("0F", rest));
    in_turn(call, &lines)
}

/// The context is read, then the path is counted, then the kind is looked at.
fn refused_paths(call: Call) -> Vec<Case> {
    let mut lines = vec![];
    for path in [ones(1), ones(32)] {
        lines.extend(refused().map(|c| format!("{c} | {path}")));
    }
    for count in [0, 31, 32, 33] {
        lines.push(format!("0F | {}", ones(count)));
        lines.push(format!("0A 0100 0B 0000 | {}", ones(count)));
    }
    in_turn(call, &lines)
}

/// Where a value is put: a new name in every place, a name that is there, contexts inside, new
/// contexts, and a value on the way that is no context.
fn put() -> Vec<String> {
    let mut lines = vec![];
    for (c, paths) in [
        (
            "0B 0000",
            &["", "0000", "FFFF", "0100 0200", "0200 0100 0200"][..],
        ),
        ("0B 0100 0500 01 01", &["", "0500", "0400", "0005"]),
        (
            "0B 0100 0500 01 01",
            &["0500 0500", "0400 0500", "0600 0500 0400"],
        ),
        (
            TWO,
            &["", "0000", "0100", "0200", "0300", "0100 0300", "0200 0300"],
        ),
        (
            TWO,
            &[
                "0200 0200",
                "0200 0400",
                "0200 0300 0300",
                "0100 0300 0300",
                "0300 0300",
            ],
        ),
        (
            NESTED,
            &["0100 0100", "0100 0100 0100", "0100 0100 0100 0100"],
        ),
        (
            NESTED,
            &["0100 0200 0300", "0100 0100 0000", "0200 0000", "FFFF 0700"],
        ),
        (
            NEAR,
            &["FF00 0000", "FFFF 0100", "0001", "0101", "0001 0100"],
        ),
        (KINDS, &["0900 0000", "0C00 0B00", "0E00 0B00", "0B00 0B00"]),
    ] {
        lines.extend(paths.iter().map(|path| format!("{c} | {path} | 03 0900")));
    }
    for v in [
        "00 01",
        "0B 0000",
        "0B 0100 0100 0F",
        "0A 0100 00 03",
        "0E 22",
        "0C 00 0000 22",
        "10 FA00000000000000 02",
    ] {
        lines.push(format!("{TWO} | 0200 0100 | {v}"));
    }
    lines
}

/// A path of n names and a value of level l give level n + l at least.
fn deep_put() -> Vec<String> {
    let mut lines = vec![];
    for (names, inside) in [(1, 29), (1, 30), (15, 15), (15, 16)] {
        lines.push(format!("0B 0000 | {} | {}", ones(names), lists(inside)));
        lines.push(format!("{TWO} | {} | {}", ones(names), chain(inside, "0F")));
    }
    for names in [29, 30, 31] {
        lines.push(format!("0B 0000 | {} | 00 00", ones(names)));
        lines.push(format!("{} | {} | 0F", chain(30, "0F"), ones(names)));
        lines.push(format!("{} | {} | 0F", chain(29, "0B 0000"), ones(names)));
    }
    // What was deep is replaced, or stays beside.
    let beside = format!("0B 0200 0100 {} 0200 01 01", lists(29));
    for path in ["0100", "0200", "0100 0100", "0200 0100"] {
        lines.push(format!("{beside} | {path} | 0F"));
    }
    lines.push(format!("{beside} | 0200 | {}", lists(29)));
    lines.push(format!("{beside} | 0200 | {}", lists(30)));
    lines
}

/// A copy, a new name, a value replaced by a shorter one, new contexts, no context on the way.
const PUT_OUTPUTS: [&str; 5] = [
    "0B 0100 0100 0F |  | 0F",
    "0B 0000 | 0100 | 0F",
    "0B 0100 0100 02 0000000000000000 | 0100 | 0F",
    "0B 0000 | 0300 0200 0100 | 01 01",
    "0B 0100 0100 0F | 0100 0100 | 0F",
];

/// The context is read, then the path is counted, then the value is read; then come the kind, a value
/// on the way, the limits and the output.
fn refused_put(call: Call) -> Vec<Case> {
    let mut lines = vec![];
    let bad = refused();
    for (place, (c, v)) in bad.iter().zip(bad.iter().cycle().skip(1)).enumerate() {
        lines.push(format!("{c} | 0100 | {v}"));
        lines.push(format!("0B 0000 | 0100 | {v}"));
        lines.push(match place % 3 {
            0 => format!("{c} | {} | 0F", ones(32)),
            1 => format!("0B 0000 | {} | {v}", ones(32)),
            _ => format!("0F | 0100 | {v}"),
        });
    }
    lines.push(format!("0F | {} | 0F", ones(32)));
    lines.push(format!("0F | {} | 0F", ones(31)));
    lines.push(format!("0B 0000 | {} | 0F", ones(33)));
    // No room, and nothing else or more than that is wrong.
    for line in [
        "0F | 0100 | 0F".to_string(),
        "0A 0100 0B 0000 |  | 0F".to_string(),
        "0B 0100 0100 0F | 0100 0100 | 0F".to_string(),
        format!("0B 0100 0100 0F | {} | 0F", ones(31)),
        format!("0B 0000 | {} | 0F", ones(31)),
        format!("0B 0000 | 0100 | {}", lists(30)),
        "0B 0000 | 0100 | 0F".to_string(),
    ] {
        lines.push(line.clone());
        lines.push(line);
    }
    let mut cases = in_turn(call, &lines);
    if call == Call::CreateEntries {
        let c = context(&[(1, list(8_200))]);
        cases.push(no_room(vec![c, bytes("0200"), list(8_178)]));
    }
    cases
}

/// Names that are equal, in turn, behind each other, and missing on either side.
fn two_contexts() -> Vec<String> {
    let all = [
        "0B 0000",
        "0B 0100 0500 01 01",
        "0B 0100 0500 0B 0100 0500 0F",
        "0B 0200 0100 0F 0600 03 0100",
        "0B 0300 0000 00 01 0500 00 02 FFFF 00 03",
        TWO,
        NEAR,
    ];
    let mut lines = vec![];
    for c in all {
        lines.extend(all.map(|other| format!("{c} | {other}")));
    }
    lines.push(format!("{KINDS} | {NESTED}"));
    lines.push(format!("{NESTED} | {KINDS}"));
    lines
}

fn two_deep() -> Vec<String> {
    let flat = "0B 0200 0100 0F 0200 0F";
    let deep = [chain(30, "0F"), chain(30, "0B 0000")];
    let mut lines = vec![];
    for c in &deep {
        lines.push(format!("{c} | {flat}"));
        lines.push(format!("{flat} | {c}"));
        lines.push(format!("{c} | {}", deep[0]));
    }
    lines
}

const TWO_OUTPUTS: [&str; 4] = [
    "0B 0000 | 0B 0000",
    "0B 0100 0100 0F | 0B 0100 0200 0F",
    "0B 0100 0100 0F | 0B 0100 0100 02 0000000000000000",
    "0B 0200 0100 03 0100 0300 0F | 0B 0200 0100 0F 0200 0F",
];

/// One byte too much, with no room; of `zip` also 16,384 bytes.
fn long_two(call: Call) -> Vec<Case> {
    if call == Call::Zip {
        let c = context(&[(1, list(8_200))]);
        let other = |length| context(&[(2, list(length))]);
        return vec![
            with_room(call, vec![c.clone(), other(8_177)], 0),
            no_room(vec![c, other(8_178)]),
        ];
    }
    let c = context(&[(1, list(8_200)), (2, vec![0x0F])]);
    let other = context(&[(2, list(8_178))]);
    vec![no_room(vec![c, other])]
}

/// Both are read, then both kinds are looked at.
fn refused_two(call: Call) -> Vec<Case> {
    let mut lines = vec![];
    let bad = refused();
    for (c, other) in bad.iter().zip(bad.iter().cycle().skip(1)) {
        lines.push(format!("{c} | {other}"));
        lines.push(format!("0B 0000 | {other}"));
        lines.push(format!("0F | {other}"));
        lines.push(format!("{c} | 0F"));
    }
    for line in [
        "0F | 0B 0000",
        "0B 0000 | 0F",
        "0F | 0F",
        "0B 0000 | 0B 0000",
    ] {
        lines.push(line.to_string());
        lines.push(line.to_string());
    }
    in_turn(call, &lines)
}

/// The parent is a context, a leaf or absent, before the name or behind it, and the name itself.
fn moves() -> Vec<String> {
    let mut lines = vec![];
    for (c, names) in [
        ("0B 0000", &["0100 | 0100", "0100 | 0200"][..]),
        (
            "0B 0100 0500 01 01",
            &["0500 | 0500", "0500 | 0400", "0500 | 0600"],
        ),
        (
            "0B 0100 0500 01 01",
            &["0400 | 0500", "0005 | 0500", "0500 | 0005"],
        ),
        (
            TWO,
            &["0100 | 0200", "0200 | 0100", "0100 | 0100", "0200 | 0200"],
        ),
        (
            TWO,
            &["0100 | 0000", "0100 | 0300", "0200 | 0300", "0300 | 0200"],
        ),
        (
            NESTED,
            &["0100 | 0100", "0100 | 0200", "0200 | 0100", "FFFF | 0100"],
        ),
        (
            NESTED,
            &["0100 | FFFF", "FFFF | 0000", "0200 | 0200", "0300 | 0100"],
        ),
        (
            NEAR,
            &["0100 | FF00", "0001 | FF00", "0001 | FFFF", "FFFF | FF00"],
        ),
        (
            NEAR,
            &["FF00 | FFFF", "0000 | 0101", "FFFF | FFFF", "0200 | FFFF"],
        ),
        (
            KINDS,
            &["0B00 | 0A00", "0A00 | 0B00", "0C00 | 0B00", "0B00 | 0E00"],
        ),
        (
            "0B 0200 0100 03 0900 0200 0B 0300 0000 0F 0100 01 01 0200 0F",
            &["0100 | 0200", "0200 | 0100", "0200 | 0200"],
        ),
    ] {
        lines.extend(names.iter().map(|two| format!("{c} | {two}")));
    }
    lines
}

/// What is moved comes one level deeper.
fn deep_moves() -> Vec<String> {
    let mut lines = vec![];
    for inside in [27, 28, 29] {
        let v = lists(inside);
        for two in ["0100 | 0200", "0100 | 0100", "0200 | 0100", "0300 | 0100"] {
            lines.push(format!("0B 0100 0100 {v} | {two}"));
        }
        lines.push(format!("0B 0200 0100 {v} 0200 0F | 0100 | 0200"));
        lines.push(format!("0B 0200 0100 {v} 0200 0B 0000 | 0100 | 0200"));
        lines.push(format!("0B 0200 0100 {v} 0200 0F | 0200 | 0100"));
    }
    lines
}

const MOVE_OUTPUTS: [&str; 4] = [
    "0B 0100 0100 0F | 0200 | 0100",
    "0B 0100 0100 0F | 0100 | 0200",
    "0B 0200 0100 0F 0200 0B 0000 | 0100 | 0200",
    "0B 0200 0100 0F 0200 02 0000000000000000 | 0100 | 0200",
];

fn set() -> Vec<String> {
    let mut lines: Vec<String> = names()
        .iter()
        .map(|line| format!("{line} | 03 0900"))
        .collect();
    for v in [
        "00 01",
        "0B 0000",
        "0B 0100 0100 0F",
        "0A 0100 00 03",
        "0E 22",
        "0D 55",
    ] {
        lines.push(format!("{TWO} | 0200 | {v}"));
        lines.push(format!("{TWO} | 0300 | {v}"));
    }
    lines
}

fn deep_set() -> Vec<String> {
    let mut lines = vec![];
    for inside in [28, 29, 30] {
        lines.push(format!("0B 0000 | 0100 | {}", lists(inside)));
        lines.push(format!("{TWO} | 0200 | {}", chain(inside, "0F")));
    }
    let beside = format!("0B 0200 0100 {} 0200 01 01", lists(29));
    lines.push(format!("{beside} | 0100 | 0F"));
    lines.push(format!("{beside} | 0300 | 0F"));
    lines
}

const SET_OUTPUTS: [&str; 3] = [
    "0B 0000 | 0100 | 0F",
    "0B 0100 0100 02 0000000000000000 | 0100 | 0F",
    "0B 0200 0100 0F 0300 0F | 0200 | 01 01",
];

/// The context is read, then the value; then come the kind, the limits and the output.
fn refused_set() -> Vec<Case> {
    let mut lines = vec![];
    let bad = refused();
    for (c, v) in bad.iter().zip(bad.iter().cycle().skip(1)) {
        lines.push(format!("{c} | 0100 | {v}"));
        lines.push(format!("0B 0000 | 0100 | {v}"));
        lines.push(format!("0F | 0100 | {v}"));
    }
    for line in [
        "0F | 0100 | 0F".to_string(),
        "0A 0100 0B 0000 | 0100 | 0F".to_string(),
        format!("0B 0000 | 0100 | {}", lists(30)),
        "0B 0000 | 0100 | 0F".to_string(),
    ] {
        lines.push(line.clone());
        lines.push(line);
    }
    in_turn(Call::SetEntry, &lines)
}

const NAME_OUTPUTS: [&str; 4] = [
    "0B 0000 | 0100",
    "0B 0100 0100 0F | 0100",
    "0B 0100 0100 02 0000000000000000 | 0100",
    "0B 0200 0100 0F 0300 0F | 0200",
];

/// A null would be one byte too much; no room is left.
fn long_null() -> Vec<Case> {
    let c = context(&[(1, list(16_376))]);
    vec![no_room(vec![c, bytes("0200")])]
}

/// A list of so many bytes.
fn list(length: usize) -> Vec<u8> {
    feel_cases::filled_list(length)
}

/// The bytes of a context.
fn context(entries: &[(u8, Vec<u8>)]) -> Vec<u8> {
    let entry = |(name, v): &(u8, Vec<u8>)| [&[*name, 0], &v[..]].concat();
    let entries_bytes: Vec<Vec<u8>> = entries.iter().map(entry).collect();
    [&[0x0B, entries.len() as u8, 0], &entries_bytes.concat()[..]].concat()
}

/// Small contexts with paths into them and values, as the call wants them.
fn random(call: Call) -> Vec<Case> {
    let mut random = Random::new(call as u64);
    let mut all = vec![];
    let count = if call < Call::CreateEntries { 18 } else { 12 };
    while all.len() < count {
        let tree = random_context(&mut random);
        let value = ValueTree::random(4, 1 + random.below(5), Parts::All, &mut random);
        let other = match random.below(3) {
            0 => near_value(&tree, Parts::All, &mut random),
            _ => random_context(&mut random),
        };
        let [c, v, other_c] = [&tree, &value, &other].map(ValueTree::bytes);
        let path = random_path(&tree, &mut random);
        let short = [&v, &other_c].iter().all(|bytes| bytes.len() <= 60);
        if !(10..=60).contains(&c.len()) || !short || path.len() > 6 {
            continue;
        }
        let names = |names: &[u16]| names.iter().flat_map(|name| name.to_le_bytes()).collect();
        let name = |path: &[u16]| names(&path[..path.len().min(1)]);
        let other_path = random_path(&tree, &mut random);
        if path.is_empty() || other_path.is_empty() {
            continue;
        }
        let args = match call {
            Call::GetFirst | Call::IsEmpty | Call::Len => vec![c],
            Call::SearchDeep | Call::ContainsDeep => vec![c, names(&path)],
            Call::CreateEntries | Call::ApplyEntries => vec![c, names(&path), v],
            Call::Zip | Call::Overwrite => vec![c, other_c],
            Call::MoveEntry => vec![c, name(&path), name(&other_path)],
            Call::SetEntry => vec![c, name(&path), v],
            _ => vec![c, name(&path)],
        };
        all.push(with_room(call, args, 0));
    }
    all
}

/// Cases with exactly the output that is wanted.
fn exact(call: Call, lines: &[String]) -> Vec<Case> {
    let case = |line: &String| with_room(call, arguments(line), 0);
    lines.iter().map(case).collect()
}

/// Cases with no room and with much, in turn.
fn in_turn(call: Call, lines: &[String]) -> Vec<Case> {
    let case = |(place, line): (usize, &String)| {
        let args = arguments(line);
        Case {
            lent: lent(call, if place % 2 == 0 { 0 } else { 40 }),
            args,
        }
    };
    lines.iter().enumerate().map(case).collect()
}

fn no_room(args: Vec<Vec<u8>>) -> Case {
    Case {
        args,
        lent: vec![0],
    }
}

/// The output one less than its need, one more, none and much; the other cases have it at its need.
fn outputs(call: Call, lines: &[&str]) -> Vec<Case> {
    let mut cases = vec![];
    for line in lines {
        let need = with_room(call, arguments(line), 0).lent[0] as isize;
        for room in [-need, -1, 1, 30] {
            cases.push(with_room(call, arguments(line), room));
        }
    }
    cases
}

/// A case with so much more or less output than is wanted, if the call has one; where there is no
/// answer the output is as long as the arguments.
fn with_room(call: Call, args: Vec<Vec<u8>>, room: isize) -> Case {
    let ample = Case {
        lent: lent(call, args.concat().len() + 100),
        args,
    };
    let need = match call.answer(&ample) {
        Answer::Bytes(answer) => answer.len(),
        _ => ample.args.concat().len(),
    };
    let length = need.checked_add_signed(room).expect("a length");
    Case {
        lent: lent(call, length),
        ..ample
    }
}

/// The length of the output, for a call that has one.
fn lent(call: Call, length: usize) -> Vec<usize> {
    if call >= Call::CreateEntries {
        vec![length]
    } else {
        vec![]
    }
}
