//! The groups of `value_least_type` and `value_type_of`.

use crate::conformance::LEAVES;
use crate::list::{Answer, Call, Case, Group, bytes};
use feel_cases::{Parts, Random, ValueTree};

pub fn groups() -> Vec<Group> {
    let mut groups = vec![];
    for call in [Call::ValueLeastType, Call::ValueTypeOf] {
        let group = |words, lines: &[&str]| Group::new(call, words, exact(call, lines));
        let of_lines = |words, lines: Vec<String>| {
            let lines: Vec<&str> = lines.iter().map(|line| &line[..]).collect();
            Group::new(call, words, exact(call, &lines))
        };
        groups.extend([
            group("examples", &EXAMPLES),
            of_lines("leaves", leaves()),
            group("decimals", &DECIMALS),
            group("lists", &LISTS),
            group("lists in lists", &LISTS_IN_LISTS),
            of_lines("ranges", ranges()),
            group("contexts", &CONTEXTS),
            of_lines("level 31", deep()),
            of_lines("wide lists", wide()),
            of_lines(
                "function definitions, built-in functions, types and Irrelevant",
                others(),
            ),
            Group::new(call, "random records", random(call)),
            Group::new(call, "scratch and output", buffers(call)),
            Group::new(call, "refusals in order", refusals()),
        ]);
        if call == Call::ValueTypeOf {
            groups.push(of_lines("each type beside the first", types_together()));
        }
    }
    groups
}

/// Document 01's examples 1 to 5.
const EXAMPLES: [&str; 5] = [
    "0A 0000",
    "0A 0200 02 0100000000000000 00 00",
    "0A 0200 00 00 02 0100000000000000",
    "0A 0200 02 0100000000000000 01 01",
    "0A 0200 0B 0200 0500 02 0100000000000000 0700 01 01 0B 0100 0500 00 00",
];

const DECIMALS: [&str; 7] = [
    "10 1900000000000000 01",
    "0A 0200 10 1900000000000000 01 02 0300000000000000",
    "0A 0200 00 00 10 FA00000000000000 02",
    "0A 0200 10 FA00000000000000 02 01 01",
    "09 02 02 02 0200000000000000 10 1900000000000000 01",
    "09 02 00 10 B5FFFFFFFFFFFFFF 02 00 00",
    "0A 0200 0B 0100 0500 10 1900000000000000 01 0B 0100 0500 02 0300000000000000",
];

fn leaves() -> Vec<String> {
    let more = ["00 01", "00 02", "00 03", "01 00", "03 FFFF", "0B 0000"];
    let leaves = LEAVES.iter().map(|(v, _)| v).chain(&more);
    leaves.map(|v| v.to_string()).collect()
}

const LISTS: [&str; 18] = [
    "0A 0100 00 00",
    "0A 0100 01 01",
    "0A 0200 00 00 00 01",
    "0A 0200 01 01 01 00",
    "0A 0200 01 01 03 0100",
    "0A 0200 03 0100 01 01",
    "0A 0300 00 00 01 01 01 00",
    "0A 0300 01 01 00 00 01 00",
    "0A 0300 01 01 01 00 00 00",
    "0A 0300 00 00 00 00 01 00",
    "0A 0300 01 01 00 00 03 0100",
    "0A 0300 00 00 01 01 03 0100",
    "0A 0200 01 01 0A 0000",
    "0A 0200 0A 0000 01 01",
    "0A 0200 01 01 0B 0000",
    "0A 0200 0A 0000 0B 0000",
    "0A 0200 0A 0000 09 00 00 00 00 00 00",
    "0A 0200 04 0100000000000000 06 0100000000000000",
];

const LISTS_IN_LISTS: [&str; 14] = [
    "0A 0100 0A 0000",
    "0A 0200 0A 0000 0A 0000",
    "0A 0200 0A 0000 0A 0100 01 01",
    "0A 0200 0A 0100 01 01 0A 0000",
    "0A 0200 0A 0100 01 01 0A 0100 03 0100",
    "0A 0200 0A 0100 00 00 0A 0100 03 0100",
    "0A 0200 0A 0100 03 0100 0A 0100 00 00",
    "0A 0200 00 00 0A 0000",
    "0A 0200 0A 0000 00 00",
    "0A 0300 0A 0000 00 00 0A 0100 01 01",
    "0A 0200 0A 0100 0A 0000 0A 0100 0A 0100 01 01",
    "0A 0200 0A 0100 0A 0100 01 01 0A 0100 0A 0000",
    "0A 0200 0A 0200 00 00 01 01 0A 0200 01 01 00 00",
    "0A 0200 0A 0200 01 01 00 00 0A 0200 00 00 01 01",
];

/// Each two of a few kinds at both ends, and ranges of parents.
fn ranges() -> Vec<String> {
    let mut lines = vec![];
    let ends = ["00 00", "01 01", "03 0100", "0A 0000"];
    for start in ends {
        for end in ends {
            lines.push(format!("09 02 01 {start} {end}"));
        }
    }
    let more = [
        "09 00 00 02 0100000000000000 02 0200000000000000",
        "09 00 00 02 0100000000000000 04 0100000000000000",
        "09 00 00 0A 0100 01 01 0A 0000",
        "09 00 00 0A 0100 01 01 0A 0100 01 00",
        "09 00 00 09 00 00 01 01 00 00 09 00 00 01 01 00 00",
        "09 00 00 0B 0100 0100 01 01 0B 0200 0100 01 00 0200 00 00",
        "0A 0200 09 00 00 01 01 01 00 09 00 00 01 01 00 00",
        "0A 0200 09 00 00 00 00 00 00 09 00 00 01 01 01 00",
    ];
    lines.extend(more.map(str::to_string));
    lines
}

const CONTEXTS: [&str; 14] = [
    "0B 0100 0100 01 01",
    "0B 0200 0100 01 01 0200 00 00",
    "0B 0200 FF00 0A 0000 0001 03 0100",
    "0B 0100 FFFF 0B 0100 0000 0B 0000",
    "0B 0200 0100 0A 0200 00 00 01 01 0200 0A 0200 01 01 00 00",
    "0B 0100 0100 09 00 00 00 00 01 01",
    "0A 0200 0B 0100 0100 01 01 0B 0100 0100 01 00",
    "0A 0200 0B 0100 0100 01 01 0B 0100 0200 01 00",
    "0A 0200 0B 0100 0100 01 01 0B 0200 0100 01 00 0200 00 00",
    "0A 0200 0B 0200 0100 01 00 0200 00 00 0B 0100 0100 01 01",
    "0A 0200 0B 0100 0100 01 01 0B 0100 0100 03 0100",
    "0A 0300 0B 0200 0100 01 01 0200 03 0100 00 00 0B 0200 0200 00 00 0300 01 01",
    "0A 0200 0B 0000 0B 0100 0100 01 01",
    "0A 0200 0B 0100 0100 0B 0100 0500 01 01 0B 0100 0100 0B 0200 0500 00 00 0600 00 00",
];

/// Values of level 31; the type of an empty list there has level 32.
fn deep() -> Vec<String> {
    let around = |before: &str, end: &str, after: &str| {
        format!("{}{end}{}", before.repeat(30), after.repeat(30))
    };
    let mut lines = vec![];
    for end in ["01 01", "00 00", "0A 0000", "0B 0000", "0F"] {
        lines.push(around("0A 0100 ", end, ""));
        lines.push(around("0B 0100 0100 ", end, ""));
    }
    lines.push(around("0A 0200 00 00 ", "01 01", ""));
    lines.push(around("0A 0200 ", "01 01", " 00 00"));
    lines.push(around("0A 0200 ", "01 01", " 0A 0000"));
    lines.push(around("0A 0200 0A 0000 ", "01 01", ""));
    lines.push(around("09 00 00 ", "01 01", " 00 00"));
    lines.push(format!("0E {} 22", "2A ".repeat(29)));
    lines.push(format!("0C 00 0000 {} 22", "2A ".repeat(29)));
    lines
}

/// Many items, with one that differs first, last or between.
fn wide() -> Vec<String> {
    let list = |items: &[(&str, usize)]| {
        let count: usize = items.iter().map(|(_, count)| count).sum();
        let items: Vec<String> = items.iter().map(|(item, n)| item.repeat(*n)).collect();
        format!(
            "0A {:02X}{:02X} {}",
            count % 256,
            count / 256,
            items.concat()
        )
    };
    vec![
        list(&[("01 01 ", 60)]),
        list(&[("00 00 ", 1), ("01 01 ", 60)]),
        list(&[("01 01 ", 60), ("00 00 ", 1)]),
        list(&[("01 01 ", 30), ("03 0100 ", 1), ("01 01 ", 30)]),
        list(&[("00 00 ", 60), ("01 01 ", 1)]),
        list(&[("0A 0000 ", 40), ("0A 0100 01 01 ", 1)]),
        list(&[("0B 0100 0100 01 01 ", 12), ("0B 0000 ", 1)]),
        list(&[("00 00 ", 128)]),
        list(&[("01 00 ", 256), ("0F ", 1)]),
    ]
}

/// No data: refused, or the function type, the type, Any.
fn others() -> Vec<String> {
    let mut lines = vec![];
    let parts = [
        "0C 00 0000 22",
        "0C 02 3412 21 0900 22 0300 2A 23",
        "0D 00",
        "0D 43",
        "0E 22",
        "0E 2D 01 22 2C 0100 0100 23",
        "0F",
    ];
    for part in parts {
        lines.push(part.to_string());
        lines.push(format!("0A 0300 {part} 00 00 {part}"));
        lines.push(format!("0A 0200 00 00 {part}"));
        lines.push(format!("0B 0200 0100 01 01 0200 {part}"));
        lines.push(format!("09 00 00 {part} {part}"));
        lines.push(format!("09 00 00 {part} 00 00"));
    }
    lines
}

/// In a list each item's type stands beside the first's, in a range one end's beside the other's.
fn types_together() -> Vec<String> {
    let mut lines = vec![];
    let pairs = [
        ("2D 01 29 20", "2D 01 22 20"),
        ("2D 01 22 20", "2D 01 29 20"),
        ("2D 01 22 20", "2D 01 22 22"),
        ("2D 01 22 22", "2D 01 22 20"),
        ("2D 00 22", "2D 00 23"),
        ("2D 00 22", "2D 01 22 22"),
        ("2C 0000", "2C 0100 0100 22"),
        ("2C 0100 0100 22", "2C 0000"),
        ("2A 22", "2A 29"),
        ("2A 29", "2A 22"),
        ("2A 22", "2B 22"),
        ("20", "22"),
        ("22", "20"),
    ];
    for (a, b) in pairs {
        lines.push(format!("0A 0200 0E {a} 0E {b}"));
        lines.push(format!("09 00 00 0E {a} 0E {b}"));
    }
    lines.push("0A 0200 0C 01 0000 20 0900 29 0C 01 0000 20 0100 22".to_string());
    lines.push("0A 0200 0C 01 0000 20 0900 22 0C 01 0000 20 0100 29".to_string());
    lines.push("0A 0200 0E 20 0D 00".to_string());
    lines.push("0A 0200 0F 01 01".to_string());
    lines.push("0A 0200 01 01 0F".to_string());
    lines.push(format!("0C FF 0000 22 {}", "0100 23 ".repeat(255)));
    lines
}

/// Small random records; of the least type some are no data.
fn random(call: Call) -> Vec<Case> {
    let mut random = Random::new(6);
    let mut all = vec![];
    while all.len() < 30 {
        let parts = match call {
            Call::ValueLeastType => {
                random.pick(&[Parts::Data, Parts::Data, Parts::Data, Parts::All])
            }
            _ => random.pick(&[Parts::Data, Parts::All]),
        };
        let v = ValueTree::random(5, 4 + random.below(12), parts, &mut random).bytes();
        if (12..=100).contains(&v.len()) {
            all.push(around(call, v, 0, 0));
        }
    }
    all
}

/// Cases with exactly the scratch and the output that are wanted.
pub fn exact(call: Call, lines: &[&str]) -> Vec<Case> {
    let case = |line: &&str| around(call, bytes(line), 0, 0);
    lines.iter().map(case).collect()
}

/// A case with so much more or less scratch, and so much more or less output, than is wanted; where
/// there is no answer the output is as long as the value.
fn around(call: Call, v: Vec<u8>, scratch: isize, room: isize) -> Case {
    let wanted = 4 * v.len();
    let ample = Case {
        lent: vec![wanted, v.len()],
        args: vec![v],
    };
    let need = match call.answer(&ample) {
        Answer::Bytes(answer) => answer.len(),
        _ => ample.lent[1],
    };
    let by = |length: usize, more| length.checked_add_signed(more).expect("a length");
    Case {
        lent: vec![by(wanted, scratch), by(need, room)],
        ..ample
    }
}

/// Scratch and output at their need, one less, one more and none; beside them a value that is no
/// data.
pub fn buffers(call: Call) -> Vec<Case> {
    let mut cases = vec![];
    for line in [
        "01 01",
        "0A 0000",
        "0A 0200 00 00 01 01",
        "0B 0200 0100 01 01 0200 0A 0000",
        "0A 0200 0F 01 01",
    ] {
        let v = bytes(line);
        let exact = around(call, v.clone(), 0, 0);
        let [wanted, need] = [exact.lent[0], exact.lent[1]].map(|length| length as isize);
        for (scratch, room) in [
            (0, -1),
            (0, 1),
            (-1, 0),
            (-1, -1),
            (1, 0),
            (1, -1),
            (-wanted, 0),
            (-wanted, -need),
            (0, -need),
            (need - wanted, 0),
            (20, 30),
        ] {
            cases.push(around(call, v.clone(), scratch, room));
        }
    }
    cases
}

/// The value, no data, the scratch, the output.
fn refusals() -> Vec<Case> {
    let too_deep = format!("{} 0F", "0A 0100 ".repeat(31));
    let too_deep_type = format!("0E {} 22", "2A ".repeat(30));
    let faults = [
        "",
        "10",
        "20",
        "00 04",
        "01 02",
        "0D 56",
        "0A 0100",
        "0A 0200 0F FF",
        "0A 0200 0F",
        "0B 0200 0100 0F 0100 0F",
        "0B 0200 0200 00 00 0100 00 00",
        "0E 2C 0200 0100 20 0100 20",
        &too_deep,
        &too_deep_type,
        "0F 0F",
        "00 00 00",
        "0A 0000 0F",
    ];
    let case = |(place, fault): (usize, &str)| Case {
        args: vec![bytes(fault)],
        lent: if place % 2 == 0 {
            vec![0, 0]
        } else {
            vec![400, 40]
        },
    };
    faults.into_iter().enumerate().map(case).collect()
}
