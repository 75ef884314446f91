//! The groups of `type_is_simple_built_in_type` and `type_is_null`.

use crate::list::{Call, Group, all, bytes};

pub fn groups() -> Vec<Group> {
    let mut groups = vec![];
    for call in [Call::IsSimpleBuiltInType, Call::IsNull] {
        let group = |words, records| Group::of_records(call, words, records);
        groups.extend([
            group(
                "simple types",
                (0x20..0x2A).map(|byte| vec![byte]).collect(),
            ),
            group("parents", all(&PARENTS)),
            group("refusals", refusals()),
        ]);
    }
    groups
}

/// Each kind of parent, over simple types and over Null.
const PARENTS: [&str; 12] = [
    "2A 20",
    "2A 29",
    "2B 22",
    "2B 29",
    "2C 0000",
    "2C 0100 0100 29",
    "2C 0100 2900 22",
    "2D 00 20",
    "2D 00 29",
    "2D 01 29 29",
    "2D 01 22 23",
    "2A 2A 29",
];

fn refusals() -> Vec<Vec<u8>> {
    let mut cases = all(&[
        "",
        "1F",
        "2E",
        "0F",
        "00 00",
        "2A",
        "2D 00",
        "2C 0200 0100 29 0100 29",
        "29 29",
        "20 00",
        "29 FF",
    ]);
    cases.push(bytes(&format!("{} 29", "2A ".repeat(32))));
    cases.push(bytes(&format!("{} 29", "2A ".repeat(31))));
    cases
}
