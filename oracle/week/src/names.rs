//! The names of the week's records. The number of a name is its place in the table.

use feel_cases::table_of;

/// The texts, ascending.
pub const NAMES: [&str; 32] = [
    "antenna",
    "azimuth",
    "band",
    "bit rate",
    "command link",
    "confirmed",
    "contact",
    "data volume",
    "day",
    "downlink",
    "duration",
    "elevation",
    "frequency",
    "handover",
    "link margins",
    "mission",
    "operator",
    "orbit",
    "passes",
    "polarisation",
    "priority",
    "purpose",
    "request",
    "rise",
    "set",
    "spacecraft",
    "spacecraft id",
    "station",
    "telemetry",
    "uplink",
    "validity",
    "window",
];

/// The number of a name.
pub fn number(name: &str) -> u16 {
    let place = NAMES.binary_search(&name).expect("a name of the table");
    place as u16
}

/// The table as bytes.
pub fn table() -> Vec<u8> {
    table_of(&NAMES).bytes
}
