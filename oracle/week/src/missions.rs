//! The types of the nine missions: what each rule expects of a pass request.

use crate::names::number;
use feel_cases::{ANY, Tree};

pub const BOOLEAN: Tree = Tree::Simple(0x21);
pub const NUMBER: Tree = Tree::Simple(0x22);
pub const STRING: Tree = Tree::Simple(0x23);
pub const DATE: Tree = Tree::Simple(0x24);
pub const DATE_TIME: Tree = Tree::Simple(0x26);
pub const DURATION: Tree = Tree::Simple(0x27);
pub const MONTHS: Tree = Tree::Simple(0x28);

/// The missions in the order of the table.
pub const MISSIONS: [&str; 9] = [
    "Aurelia", "Boreas", "Cryon", "Dovre", "Elvira", "Fram", "Glimt", "Halo", "Isla",
];

/// The types, in the order of [MISSIONS].
pub fn types() -> Vec<Tree> {
    let window = || range(DATE_TIME);
    let craft = || context(&[("band", STRING), ("spacecraft id", NUMBER)]);
    let margins = || context(&[("downlink", NUMBER), ("uplink", NUMBER)]);
    let pass = || {
        let parts = [
            ("duration", DURATION),
            ("orbit", NUMBER),
            ("rise", DATE_TIME),
        ];
        list(context(&parts))
    };
    vec![
        // Aurelia: the least that a booking says.
        context(&[
            ("request", NUMBER),
            ("spacecraft", craft()),
            ("window", window()),
        ]),
        // Boreas: with link margins.
        context(&[
            ("link margins", margins()),
            ("request", NUMBER),
            ("spacecraft", craft()),
            ("window", window()),
        ]),
        // Cryon: with a list of passes.
        context(&[
            ("passes", pass()),
            ("request", NUMBER),
            ("spacecraft", craft()),
            ("window", window()),
        ]),
        // Dovre: an antenna of its own, and how high each pass rises.
        context(&[
            (
                "antenna",
                context(&[
                    ("band", STRING),
                    ("polarisation", STRING),
                    ("station", STRING),
                ]),
            ),
            ("link margins", margins()),
            (
                "passes",
                list(context(&[("azimuth", NUMBER), ("elevation", NUMBER)])),
            ),
        ]),
        // Elvira: the margins of each pass as a list.
        context(&[
            ("link margins", list(NUMBER)),
            ("passes", pass()),
            ("spacecraft", craft()),
        ]),
        // Fram: whom to call, and which stations hand over.
        context(&[
            ("contact", STRING),
            ("handover", list(STRING)),
            ("validity", MONTHS),
            ("window", window()),
        ]),
        // Glimt: several windows.
        context(&[
            ("confirmed", BOOLEAN),
            ("request", NUMBER),
            ("window", list(window())),
        ]),
        // Halo: whatever the passes are.
        context(&[
            ("confirmed", BOOLEAN),
            ("passes", list(ANY)),
            ("request", NUMBER),
        ]),
        // Isla: a command link.
        context(&[
            (
                "command link",
                context(&[("bit rate", NUMBER), ("frequency", range(NUMBER))]),
            ),
            ("day", DATE),
            ("priority", NUMBER),
            ("purpose", STRING),
        ]),
    ]
}

pub fn list(inner: Tree) -> Tree {
    Tree::One(0x2A, Box::new(inner))
}

pub fn range(inner: Tree) -> Tree {
    Tree::One(0x2B, Box::new(inner))
}

/// A context type; the names are given in their order.
pub fn context(entries: &[(&str, Tree)]) -> Tree {
    Tree::Context(
        entries
            .iter()
            .map(|(name, t)| (number(name), t.clone()))
            .collect(),
    )
}
