//! Worked examples, and the smallest inputs of docs/DIFFERENCES.md: the Rust and the library both
//! give the answer that stands here.

use compare::answer::Answer;
use compare::call::{Call, Case, Gives};
use compare::calls::CALLS;
use compare::lent::Standing;
use compare::run::run_cases;

/// What a row says the answer is.
enum Want {
    Level(u32),
    Yes,
    No,
    Bytes(&'static str),
    Command(u32),
    Unknown,
    Refused(u8),
}
use Want::{Bytes, Command, Level, No, Refused, Unknown, Yes};

/// A call, its arguments in hexadecimal, and its answer. A digit string with `*n` behind a bracket is
/// repeated: `[2A]*31 22`.
type Row = (&'static str, &'static [&'static str], Want);

/// Scratch and output that suffice for every row.
const ROOM: usize = 100_000;

const READERS: &[Row] = &[
    ("check_type", &["2A 29"], Level(2)),
    ("check_type", &["2A 2C 01 00 05 00 22"], Level(3)),
    ("check_type", &["2D 01 29 20"], Level(2)),
    ("check_type", &[""], Refused(6)),
    ("check_type", &["2A"], Refused(7)),
    ("check_type", &["2E"], Refused(7)),
    ("check_type", &["01 01"], Refused(7)),
    ("check_type", &["2C 02 00 01 00 22 01 00 23"], Refused(8)),
    // the name is judged before its entry's child, which is missing
    ("check_type", &["2C 02 00 01 00 22 01 00"], Refused(8)),
    ("check_type", &["22 22"], Refused(10)),
    ("check_type", &["[2A]*31 22"], Level(32)),
    ("check_type", &["[2A]*32 22"], Refused(9)),
    // no byte where the child must start: shape, though no level is left either
    ("check_type", &["[2A]*32"], Refused(7)),
    // the level before the command
    ("check_type", &["[2A]*32 FF"], Refused(9)),
    ("check_type", &["[22]*16385"], Refused(6)),
    ("check_type", &["[22]*16384"], Refused(10)),
    ("check_value", &["00 03"], Level(1)),
    ("check_value", &["00 04"], Refused(2)),
    ("check_value", &["01 01"], Level(1)),
    ("check_value", &["02 00 00 00 00 00 00 00"], Refused(2)),
    ("check_value", &["08 01 02 00 00 00 00 00 00"], Level(1)),
    ("check_value", &["0B 01 00 05 00 01 01"], Level(2)),
    ("check_value", &["09 02 02 03 07 00 03 08 00"], Level(2)),
    ("check_value", &["0C 01 05 00 22 07 00 23"], Level(2)),
    ("check_value", &["0E 22"], Level(2)),
    ("check_value", &["0E 01"], Refused(2)),
    ("check_value", &["0E 0E 22"], Refused(2)),
    ("check_value", &["[0A 01 00]*30 0A 00 00"], Level(31)),
    ("check_value", &["[0A 01 00]*31 0A 00 00"], Refused(4)),
    // a type inside counts to the value's level
    ("check_value", &["0E [2A]*29 22"], Level(31)),
    ("check_value", &["0E [2A]*30 22"], Refused(4)),
    ("check_value", &["0A 00 00 00"], Refused(5)),
    // 2.5, the highest exponent and one more, a byte missing
    ("check_value", &["10 19 [00]*7 01"], Level(1)),
    ("check_value", &["10 [FF]*8 12"], Level(1)),
    ("check_value", &["10 [FF]*8 13"], Refused(2)),
    ("check_value", &["10 19 [00]*7"], Refused(2)),
];

/// 2.5 and 2.50, -0.75 and -0.7, 5 and 5.000000000000000001.
const DECIMALS: &[Row] = &[
    ("value_is_number", &["10 FA [00]*7 02"], Yes),
    ("value_is_conformant", &["10 FA [00]*7 02", "22"], Yes),
    ("value_is_conformant", &["10 FA [00]*7 02", "23"], No),
    ("value_type_of", &["10 FA [00]*7 02"], Bytes("22")),
    (
        "value_least_type",
        &["0A 02 00 02 03 [00]*7 10 19 [00]*7 01"],
        Bytes("2A 22"),
    ),
    // as it is written
    (
        "value_coerced",
        &["0A 01 00 10 FA [00]*7 02", "22"],
        Bytes("10 FA [00]*7 02"),
    ),
    (
        "value_is_valid_range",
        &["09 02 02 10 19 [00]*7 01 10 FA [00]*7 02"],
        Yes,
    ),
    (
        "value_is_valid_range",
        &["09 02 02 10 FA [00]*7 02 10 19 [00]*7 01"],
        Yes,
    ),
    (
        "value_is_valid_range",
        &["09 02 02 10 B5 [FF]*7 02 10 F9 [FF]*7 01"],
        Yes,
    ),
    (
        "value_is_valid_range",
        &["09 02 02 10 F9 [FF]*7 01 10 B5 [FF]*7 02"],
        No,
    ),
    (
        "value_is_valid_range",
        &["09 02 02 02 05 [00]*7 10 01 00 F4 44 82 91 63 45 12"],
        Yes,
    ),
    (
        "value_is_valid_range",
        &["09 02 02 10 01 00 F4 44 82 91 63 45 12 02 05 [00]*7"],
        No,
    ),
];

/// Both readings of the smallest records on which they differ.
const STRICT: &[Row] = &[
    ("type_is_conformant", &["2D 00 20", "2D 00 21"], Yes),
    ("strict_type_is_conformant", &["2D 00 20", "2D 00 21"], No),
    (
        "type_common_supertype",
        &["29", "2D 00 21"],
        Bytes("2D 00 20"),
    ),
    (
        "strict_type_common_supertype",
        &["29", "2D 00 21"],
        Bytes("2D 00 21"),
    ),
    (
        "type_common_subtype",
        &["20", "2D 00 21"],
        Bytes("2D 00 20"),
    ),
    (
        "strict_type_common_subtype",
        &["20", "2D 00 21"],
        Bytes("2D 00 21"),
    ),
    (
        "type_common_subtype",
        &["2D 00 22", "2D 00 23"],
        Bytes("2D 00 20"),
    ),
    (
        "strict_type_common_subtype",
        &["2D 00 22", "2D 00 23"],
        Bytes("2D 00 29"),
    ),
    // a result inside the result; a parameter each way round
    (
        "value_is_conformant",
        &["0C 00 00 00 2D 00 22", "2D 00 2D 00 23"],
        Yes,
    ),
    (
        "strict_value_is_conformant",
        &["0C 00 00 00 2D 00 22", "2D 00 2D 00 23"],
        No,
    ),
    (
        "value_is_conformant",
        &["0C 01 00 00 20 00 00 22", "2D 01 20 20"],
        Yes,
    ),
    (
        "strict_value_is_conformant",
        &["0C 01 00 00 20 00 00 22", "2D 01 20 20"],
        No,
    ),
    (
        "value_is_conformant",
        &["0C 01 00 00 20 00 00 20", "2D 01 22 20"],
        No,
    ),
    (
        "strict_value_is_conformant",
        &["0C 01 00 00 20 00 00 20", "2D 01 22 20"],
        Yes,
    ),
    ("strict_value_is_conformant", &["0D 00", "2D 01 22 22"], No),
    ("value_least_type", &["0C 00 00 00 20"], Refused(13)),
    (
        "strict_value_least_type",
        &["0C 00 00 00 20"],
        Bytes("2D 00 20"),
    ),
    (
        "strict_value_least_type",
        &["0A 02 00 0C 00 00 00 22 0F"],
        Refused(13),
    ),
    // the inferred type is one to which the list does not conform
    (
        "strict_value_least_type",
        &["0A 02 00 0C 00 00 00 22 0C 00 00 00 23"],
        Bytes("2A 2D 00 20"),
    ),
    (
        "strict_value_is_conformant",
        &["0A 02 00 0C 00 00 00 22 0C 00 00 00 23", "2A 2D 00 22"],
        No,
    ),
];

const BOUNDS: &[Row] = &[
    ("type_common_supertype", &["22", "23"], Bytes("20")),
    ("type_common_subtype", &["22", "23"], Bytes("29")),
    ("type_common_supertype", &["22", "22"], Bytes("22")),
    ("type_common_supertype", &["29", "2A 22"], Bytes("2A 22")),
    ("type_common_subtype", &["2A 22", "20"], Bytes("2A 22")),
    (
        "type_common_supertype",
        &["2C 02 00 01 00 22 02 00 23", "2C 01 00 02 00 23"],
        Bytes("2C 01 00 02 00 23"),
    ),
    (
        "type_common_subtype",
        &["2C 01 00 01 00 22", "2C 01 00 02 00 23"],
        Bytes("2C 02 00 01 00 22 02 00 23"),
    ),
    // the parameters go the other way
    (
        "type_common_supertype",
        &["2D 01 20 22", "2D 01 22 23"],
        Bytes("2D 01 22 20"),
    ),
    (
        "type_common_supertype",
        &["2D 00 22", "2D 01 22 22"],
        Bytes("20"),
    ),
    (
        "type_common_subtype",
        &["2D 00 22", "2D 00 23"],
        Bytes("2D 00 20"),
    ),
    ("type_reduced", &["2A 2D 00 2A 22"], Bytes("2A 2D 00 20")),
    ("type_common_supertype", &["", "01"], Refused(6)),
    ("type_common_supertype", &["22", "01"], Refused(7)),
];

/// With so much scratch and output.
const SHORT: &[(Row, usize, usize)] = &[
    (("type_common_supertype", &["22", "22"], Refused(14)), 1, 0),
    (("type_common_supertype", &["22", "22"], Refused(18)), 2, 0),
    (("type_reduced", &["2D 00 22"], Refused(18)), 0, 2),
    (("type_reduced", &["2D 00 22"], Bytes("2D 00 20")), 0, 3),
];

/// The room of the output stands behind the answer.
const TEXTS: &[(Row, usize)] = &[
    (("names_from_str", &["41 6E 79"], Command(0x20)), ROOM),
    (
        ("names_from_str", &["62 6F 6F 6C 65 61 6E"], Command(0x21)),
        ROOM,
    ),
    (
        ("names_from_str", &["6E 75 6D 62 65 72"], Command(0x22)),
        ROOM,
    ),
    (
        ("names_from_str", &["73 74 72 69 6E 67"], Command(0x23)),
        ROOM,
    ),
    (("names_from_str", &["64 61 74 65"], Command(0x24)), ROOM),
    (("names_from_str", &["74 69 6D 65"], Command(0x25)), ROOM),
    (
        (
            "names_from_str",
            &["64 61 74 65 20 61 6E 64 20 74 69 6D 65"],
            Command(0x26),
        ),
        ROOM,
    ),
    (
        (
            "names_from_str",
            &["64 61 79 73 20 61 6E 64 20 74 69 6D 65 20 64 75 72 61 74 69 6F 6E"],
            Command(0x27),
        ),
        ROOM,
    ),
    (
        (
            "names_from_str",
            &["79 65 61 72 73 20 61 6E 64 20 6D 6F 6E 74 68 73 20 64 75 72 61 74 69 6F 6E"],
            Command(0x28),
        ),
        ROOM,
    ),
    (("names_from_str", &["4E 75 6C 6C"], Command(0x29)), ROOM),
    // "any", " Any" and the empty text are unknown
    (("names_from_str", &["61 6E 79"], Unknown), ROOM),
    (("names_from_str", &["20 41 6E 79"], Unknown), ROOM),
    (("names_from_str", &[""], Unknown), ROOM),
    // "date and time", and "Date"
    (
        (
            "names_is_built_in_type_name",
            &["64 61 74 65 20 61 6E 64 20 74 69 6D 65"],
            Yes,
        ),
        ROOM,
    ),
    (("names_is_built_in_type_name", &["44 61 74 65"], No), ROOM),
    // a type without a name, over the empty table
    (
        (
            "names_display",
            &["26", "00 00"],
            Bytes("64 61 74 65 20 61 6E 64 20 74 69 6D 65"),
        ),
        13,
    ),
    // "list<number>"
    (
        (
            "names_display",
            &["2A 22", "00 00"],
            Bytes("6C 69 73 74 3C 6E 75 6D 62 65 72 3E"),
        ),
        100,
    ),
    // "range<date>"
    (
        (
            "names_display",
            &["2B 24", "00 00"],
            Bytes("72 61 6E 67 65 3C 64 61 74 65 3E"),
        ),
        100,
    ),
    // over the table "age", "first name"
    (
        (
            "names_display",
            &[
                "2C 02 00 00 00 22 01 00 23",
                "02 00 03 61 67 65 0A 66 69 72 73 74 20 6E 61 6D 65",
            ],
            Bytes(
                "63 6F 6E 74 65 78 74 3C 61 67 65 3A 20 6E 75 6D 62 65 72 2C 20 66 69 72 73 74 20 6E 61 6D 65 3A 20 73 74 72 69 6E 67 3E",
            ),
        ),
        100,
    ),
    // "context<>"
    (
        (
            "names_display",
            &[
                "2C 00 00",
                "02 00 03 61 67 65 0A 66 69 72 73 74 20 6E 61 6D 65",
            ],
            Bytes("63 6F 6E 74 65 78 74 3C 3E"),
        ),
        100,
    ),
    // "function<number, string>->boolean"
    (
        (
            "names_display",
            &["2D 02 22 23 21", "00 00"],
            Bytes(
                "66 75 6E 63 74 69 6F 6E 3C 6E 75 6D 62 65 72 2C 20 73 74 72 69 6E 67 3E 2D 3E 62 6F 6F 6C 65 61 6E",
            ),
        ),
        100,
    ),
    // "function<>->list<Any>"
    (
        (
            "names_display",
            &["2D 00 2A 20", "00 00"],
            Bytes("66 75 6E 63 74 69 6F 6E 3C 3E 2D 3E 6C 69 73 74 3C 41 6E 79 3E"),
        ),
        100,
    ),
    // "list<context<first name: function<Null>->Any>>"
    (
        (
            "names_display",
            &[
                "2A 2C 01 00 01 00 2D 01 29 20",
                "02 00 03 61 67 65 0A 66 69 72 73 74 20 6E 61 6D 65",
            ],
            Bytes(
                "6C 69 73 74 3C 63 6F 6E 74 65 78 74 3C 66 69 72 73 74 20 6E 61 6D 65 3A 20 66 75 6E 63 74 69 6F 6E 3C 4E 75 6C 6C 3E 2D 3E 41 6E 79 3E 3E",
            ),
        ),
        100,
    ),
    // the text has 40 bytes
    (
        (
            "names_display",
            &[
                "2C 02 00 00 00 22 01 00 23",
                "02 00 03 61 67 65 0A 66 69 72 73 74 20 6E 61 6D 65",
            ],
            Bytes(
                "63 6F 6E 74 65 78 74 3C 61 67 65 3A 20 6E 75 6D 62 65 72 2C 20 66 69 72 73 74 20 6E 61 6D 65 3A 20 73 74 72 69 6E 67 3E",
            ),
        ),
        40,
    ),
    (
        (
            "names_display",
            &[
                "2C 02 00 00 00 22 01 00 23",
                "02 00 03 61 67 65 0A 66 69 72 73 74 20 6E 61 6D 65",
            ],
            Refused(18),
        ),
        39,
    ),
    // name 2 is not in the table; before the room
    (
        (
            "names_display",
            &[
                "2C 01 00 02 00 22",
                "02 00 03 61 67 65 0A 66 69 72 73 74 20 6E 61 6D 65",
            ],
            Refused(20),
        ),
        0,
    ),
    // the type before the table
    (("names_display", &["2A", "00"], Refused(7)), 0),
    // malformed tables: one byte, no byte, a text that is missing, a byte left over
    (("names_display", &["22", "00"], Refused(19)), 100),
    (("names_display", &["22", ""], Refused(19)), 100),
    (("names_display", &["22", "01 00"], Refused(19)), 100),
    (
        ("names_display", &["22", "01 00 03 61 62"], Refused(19)),
        100,
    ),
    (
        ("names_display", &["22", "01 00 01 61 00"], Refused(19)),
        100,
    ),
    // first or last byte 20; a byte below 20, a byte above 7E
    (
        ("names_display", &["22", "01 00 02 20 61"], Refused(19)),
        100,
    ),
    (
        ("names_display", &["22", "01 00 02 61 20"], Refused(19)),
        100,
    ),
    (
        ("names_display", &["22", "01 00 03 61 1F 62"], Refused(19)),
        100,
    ),
    (
        ("names_display", &["22", "01 00 02 61 7F"], Refused(19)),
        100,
    ),
    // not strictly ascending
    (
        ("names_display", &["22", "02 00 01 61 01 61"], Refused(19)),
        100,
    ),
    (
        (
            "names_display",
            &["22", "02 00 02 61 62 01 61"],
            Refused(19),
        ),
        100,
    ),
    // a proper beginning is below, and the empty text is below every other
    (
        (
            "names_display",
            &["22", "04 00 00 01 61 02 61 62 01 62"],
            Bytes("6E 75 6D 62 65 72"),
        ),
        100,
    ),
    // parts "", "b"
    (("names_name_new", &["02 00 01 62"], Bytes("20 62")), 100),
    // "first name"
    (
        (
            "names_name_new",
            &["02 05 66 69 72 73 74 04 6E 61 6D 65"],
            Bytes("66 69 72 73 74 20 6E 61 6D 65"),
        ),
        100,
    ),
    // "a", ".", "b"
    (
        (
            "names_name_new",
            &["03 01 61 01 2E 01 62"],
            Bytes("61 2E 62"),
        ),
        100,
    ),
    // "."
    (("names_name_new", &["01 01 2E"], Bytes("2E")), 100),
    // "a", "+", "-", "b", "c"
    (
        (
            "names_name_new",
            &["05 01 61 01 2B 01 2D 01 62 01 63"],
            Bytes("61 2B 2D 62 20 63"),
        ),
        100,
    ),
    // parts are trimmed, a mark as well; blanks inside stay
    (
        (
            "names_name_new",
            &["03 05 20 61 20 62 09 04 0D 0A 2A 20 02 0B 63"],
            Bytes("61 20 62 2A 63"),
        ),
        100,
    ),
    // a blank part is empty, and adds nothing
    (
        (
            "names_name_new",
            &["03 01 61 02 20 20 01 62"],
            Bytes("61 20 62"),
        ),
        100,
    ),
    // 00 and 1F are not blank
    (
        (
            "names_name_new",
            &["03 01 61 01 00 01 1F"],
            Bytes("61 20 00 20 1F"),
        ),
        100,
    ),
    // no parts give the empty name
    (("names_name_new", &["00"], Bytes("")), 0),
    // no bytes at all; a part that is missing; a byte left over; a byte above 7F
    (("names_name_new", &[""], Refused(19)), 100),
    (("names_name_new", &["01"], Refused(19)), 100),
    (("names_name_new", &["01 01 61 00"], Refused(19)), 100),
    (("names_name_new", &["01 01 80"], Refused(19)), 100),
    (("names_name_new", &["02 01 61 01 62"], Refused(18)), 2),
    // parts of 16,384 bytes, and of one more: 64 parts of blanks
    (
        (
            "names_trim",
            &["20 09 20 61 20 62 20 0A"],
            Bytes("61 20 62"),
        ),
        ROOM,
    ),
    (("names_trim", &["09 0A 0B 0C 0D 20"], Bytes("")), ROOM),
];

/// The fixed relation; a date is a date and time; 21 to 28 one above the other; booleans and numbers
/// below both strings and dates.
const FIXED: &str = "01 00 00 00 00 00 00 00 00 00 \
     01 01 00 00 00 00 00 00 00 00 \
     01 00 01 00 00 00 00 00 00 00 \
     01 00 00 01 00 00 00 00 00 00 \
     01 00 00 00 01 00 00 00 00 00 \
     01 00 00 00 00 01 00 00 00 00 \
     01 00 00 00 00 00 01 00 00 00 \
     01 00 00 00 00 00 00 01 00 00 \
     01 00 00 00 00 00 00 00 01 00 \
     01 01 01 01 01 01 01 01 01 01";

const DATES: &str = "01 00 00 00 00 00 00 00 00 00 \
     01 01 00 00 00 00 00 00 00 00 \
     01 00 01 00 00 00 00 00 00 00 \
     01 00 00 01 00 00 00 00 00 00 \
     01 00 00 00 01 00 01 00 00 00 \
     01 00 00 00 00 01 00 00 00 00 \
     01 00 00 00 00 00 01 00 00 00 \
     01 00 00 00 00 00 00 01 00 00 \
     01 00 00 00 00 00 00 00 01 00 \
     01 01 01 01 01 01 01 01 01 01";

const CHAIN: &str = "01 00 00 00 00 00 00 00 00 00 \
     01 01 01 01 01 01 01 01 01 00 \
     01 00 01 01 01 01 01 01 01 00 \
     01 00 00 01 01 01 01 01 01 00 \
     01 00 00 00 01 01 01 01 01 00 \
     01 00 00 00 00 01 01 01 01 00 \
     01 00 00 00 00 00 01 01 01 00 \
     01 00 00 00 00 00 00 01 01 00 \
     01 00 00 00 00 00 00 00 01 00 \
     01 01 01 01 01 01 01 01 01 01";

const TWO_ABOVE: &str = "01 00 00 00 00 00 00 00 00 00 \
     01 01 00 01 01 00 00 00 00 00 \
     01 00 01 01 01 00 00 00 00 00 \
     01 00 00 01 00 00 00 00 00 00 \
     01 00 00 00 01 00 00 00 00 00 \
     01 00 00 00 00 01 00 00 00 00 \
     01 00 00 00 00 00 01 00 00 00 \
     01 00 00 00 00 00 00 01 00 00 \
     01 00 00 00 00 00 00 00 01 00 \
     01 01 01 01 01 01 01 01 01 01";

/// The calls over a table of simple types.
const TABLES: &[Row] = &[
    ("table_check", &[FIXED], Yes),
    ("table_check", &[DATES], Yes),
    ("table_check", &[CHAIN], Yes),
    ("table_check", &[TWO_ABOVE], Refused(28)),
    ("table_check", &[""], Refused(26)),
    ("table_check", &["[01]*99"], Refused(26)),
    ("table_check", &["[01]*101"], Refused(26)),
    ("table_check", &["[02]*100"], Refused(26)),
    ("table_check", &["[00]*100"], Refused(27)),
    ("table_check", &["[01]*100"], Refused(27)),
    ("table_type_is_conformant", &[FIXED, "24", "26"], No),
    ("table_type_is_conformant", &[DATES, "24", "26"], Yes),
    ("table_type_is_conformant", &[DATES, "26", "24"], No),
    ("table_type_is_conformant", &[CHAIN, "2A 21", "2A 28"], Yes),
    // a parameter is compared the other way, a lone result not at all
    (
        "table_type_is_conformant",
        &[DATES, "2D 01 26 24", "2D 01 24 26"],
        Yes,
    ),
    (
        "table_type_is_conformant",
        &[DATES, "2D 01 24 24", "2D 01 26 26"],
        No,
    ),
    (
        "table_type_is_conformant",
        &[DATES, "2D 00 26", "2D 00 24"],
        Yes,
    ),
    // other types meet a simple one only at Any
    ("table_type_is_conformant", &[CHAIN, "2A 21", "28"], No),
    ("table_type_is_conformant", &[CHAIN, "2A 21", "20"], Yes),
    // the table before all else
    (
        "table_type_is_conformant",
        &[TWO_ABOVE, "", ""],
        Refused(28),
    ),
    ("table_type_is_conformant", &[DATES, "", ""], Refused(6)),
    (
        "table_type_common_supertype",
        &[FIXED, "24", "26"],
        Bytes("20"),
    ),
    (
        "table_type_common_supertype",
        &[DATES, "24", "26"],
        Bytes("26"),
    ),
    (
        "table_type_common_supertype",
        &[DATES, "24", "25"],
        Bytes("20"),
    ),
    (
        "table_type_common_supertype",
        &[CHAIN, "23", "2A 23"],
        Bytes("20"),
    ),
    (
        "table_type_common_supertype",
        &[DATES, "2D 01 24 24", "2D 01 26 26"],
        Bytes("2D 01 24 26"),
    ),
    (
        "table_type_common_subtype",
        &[FIXED, "24", "26"],
        Bytes("29"),
    ),
    (
        "table_type_common_subtype",
        &[DATES, "24", "26"],
        Bytes("24"),
    ),
    (
        "table_type_common_subtype",
        &[CHAIN, "2B 28", "2B 21"],
        Bytes("2B 21"),
    ),
    (
        "table_type_common_subtype",
        &[CHAIN, "28", "2B 28"],
        Bytes("29"),
    ),
    ("table_value_is_conformant", &[FIXED, "04 [00]*8", "26"], No),
    (
        "table_value_is_conformant",
        &[DATES, "04 [00]*8", "26"],
        Yes,
    ),
    ("table_value_is_conformant", &[DATES, "06 [00]*8", "24"], No),
    // the parameters of a definition are not turned
    (
        "table_value_is_conformant",
        &[DATES, "0C 01 00 00 24 00 00 24", "2D 01 26 26"],
        Yes,
    ),
    (
        "table_value_least_type",
        &[DATES, "0A 02 00 04 [00]*8 06 00 00 00 00 00 00 00 00"],
        Bytes("2A 26"),
    ),
    (
        "table_value_least_type",
        &[FIXED, "0A 02 00 04 [00]*8 06 00 00 00 00 00 00 00 00"],
        Bytes("2A 20"),
    ),
    (
        "table_value_least_type",
        &[DATES, "0C 00 00 00 22"],
        Refused(13),
    ),
];

/// docs/DIFFERENCES.md, row by row.
const DIFFERENCES: &[Row] = &[
    ("check_value", &[""], Refused(1)),
    ("check_type", &[""], Refused(6)),
    ("check_value", &["[0A 01 00]*31 0A 00 00"], Refused(4)),
    (
        "context_remove_entry",
        &["0B 01 00 01 00 01 01", "01 00"],
        Bytes("0B 00 00"),
    ),
    (
        "context_contains_deep",
        &["0B 00 00", "[01 00]*32"],
        Refused(11),
    ),
    (
        "context_create_entries",
        &["0B 00 00", "[01 00]*31", "00 00"],
        Refused(17),
    ),
    (
        "value_coerced",
        &["[0B 01 00 01 00]*30 0B 00 00", "2A 20"],
        Refused(17),
    ),
    (
        "names_display",
        &["2C 01 00 00 00 20", "01 00 01 7F"],
        Refused(19),
    ),
    ("names_name_new", &["01 01 80"], Refused(19)),
    ("type_is_conformant", &["2D 00 22", "2D 00 23"], Yes),
    ("type_instance_of", &["22", "22"], No),
    ("type_instance_of", &["22", "20"], No),
    ("type_instance_of", &["2A 29", "2A 22"], No),
    ("type_instance_of", &["2B 22", "2B 22"], No),
    ("type_instance_of", &["2D 00 20", "2D 00 20"], No),
    (
        "type_instance_of",
        &["2C 01 00 01 00 22", "2C 01 00 01 00 20"],
        No,
    ),
    (
        "value_is_conformant",
        &["0C 01 00 00 20 00 00 29", "2D 01 22 20"],
        Yes,
    ),
    (
        "value_is_conformant",
        &["0C 01 00 00 20 00 00 22", "2D 01 29 20"],
        No,
    ),
    ("value_is_conformant", &["0D 00", "2D 01 22 22"], No),
    ("value_type_of", &["0D 00"], Bytes("20")),
    ("value_type_of", &["0A 02 00 00 00 01 01"], Bytes("2A 20")),
    (
        "value_least_type",
        &["0A 02 00 00 00 01 01"],
        Bytes("2A 21"),
    ),
    (
        "value_type_of",
        &["0A 02 00 0C 00 00 00 22 0C 00 00 00 23"],
        Bytes("2A 2D 00 22"),
    ),
    (
        "value_is_conformant",
        &["0A 02 00 0C 00 00 00 22 0C 00 00 00 23", "2A 2D 00 22"],
        No,
    ),
    ("value_type_of", &["09 00 00 00 00 01 01"], Bytes("2B 20")),
    (
        "value_least_type",
        &["09 00 00 00 00 01 01"],
        Bytes("2B 21"),
    ),
    (
        "value_coerced",
        &["0C 00 00 00 20", "21"],
        Bytes("0C 00 00 00 20"),
    ),
    (
        "value_coerced",
        &["0C 00 00 00 20", "2A 20"],
        Bytes("0C 00 00 00 20"),
    ),
    ("value_coerced", &["0D 06", "2D 01 22 22"], Bytes("00 01")),
    ("value_coerced", &["0D 00", "2D 01 22 22"], Bytes("0D 00")),
    (
        "value_coerced",
        &["0D 00", "2A 2D 01 22 22"],
        Bytes("00 01"),
    ),
    (
        "value_coerced",
        &["0A 01 00 0D 00", "2D 01 22 22"],
        Bytes("00 01"),
    ),
    ("value_coerced", &["04 [00]*8", "26"], Bytes("00 01")),
    ("value_is_conformant", &["0C 00 00 00 22", "2D 00 23"], No),
    (
        "type_get_value_checked",
        &["2C 01 00 00 00 22", "0B 00 00"],
        Bytes("0B 00 00"),
    ),
    (
        "value_is_conformant",
        &["0B 00 00", "2C 01 00 00 00 22"],
        No,
    ),
];

fn hex(digits: &str) -> Vec<u8> {
    let digits: Vec<u8> = digits.bytes().filter(|byte| *byte != b' ').collect();
    digits
        .chunks(2)
        .map(|two| {
            u8::from_str_radix(std::str::from_utf8(two).expect("digits"), 16).expect("a byte")
        })
        .collect()
}

/// The bytes of an argument: hexadecimal, with `[..]*n` for a part that stands n times.
fn bytes(text: &str) -> Vec<u8> {
    let Some((before, rest)) = text.split_once('[') else {
        return hex(text);
    };
    let (part, rest) = rest.split_once("]*").expect("a repeated part");
    let end = rest.find(' ').unwrap_or(rest.len());
    let times: usize = rest[..end].parse().expect("how often");
    let mut all = hex(before);
    all.extend(hex(part).repeat(times));
    all.extend(bytes(&rest[end..]));
    all
}

fn ask((name, args, want): &Row, scratch: usize, output: usize) {
    let args: Vec<Vec<u8>> = args.iter().map(|text| bytes(text)).collect();
    let args: Vec<&[u8]> = args.iter().map(Vec::as_slice).collect();
    ask_bytes(name, &args, want, scratch, output);
}

fn ask_bytes(name: &str, args: &[&[u8]], want: &Want, scratch: usize, output: usize) {
    let call: &Call = CALLS.iter().find(|call| call.name == name).expect("a call");
    let case = Case {
        args,
        others: None,
        scratch,
        output,
    };
    let expected = (call.expected)(case);
    let (answer, written) = match want {
        Level(n) => (Answer::given(*n), Vec::new()),
        Yes => (Answer::given(1), Vec::new()),
        No => (Answer::given(0), Vec::new()),
        Bytes(text) => {
            assert_eq!(call.gives, Gives::Length);
            let written = bytes(text);
            (Answer::given(written.len() as u32), written)
        }
        Command(c) => (Answer::given(*c), Vec::new()),
        Unknown => (Answer::none(), Vec::new()),
        Refused(n) => (Answer::refused(*n), Vec::new()),
    };
    assert_eq!(expected.answer, answer, "{name} {args:02X?}");
    assert_eq!(expected.output, written, "{name} {args:02X?}");
    let tally = run_cases(call, Standing::Guarded, |each| each(case));
    assert_eq!(tally.cases, 1);
    assert_eq!(tally.smallest, None, "{tally}");
}

#[test]
fn worked_examples_of_readers_and_bounds() {
    for row in READERS.iter().chain(BOUNDS) {
        ask(row, ROOM, ROOM);
    }
    for (row, scratch, output) in SHORT {
        ask(row, *scratch, *output);
    }
}

#[test]
fn worked_examples_of_both_readings() {
    for row in STRICT {
        ask(row, ROOM, ROOM);
    }
}

#[test]
fn worked_examples_of_tables() {
    for row in TABLES {
        ask(row, ROOM, ROOM);
    }
}

#[test]
fn worked_examples_of_decimals() {
    for row in DECIMALS {
        ask(row, ROOM, ROOM);
    }
}

/// So many texts of 255 bytes, ascending by their first byte, and a last one of so many bytes.
fn texts(last: u8) -> Vec<u8> {
    let mut table = vec![64, 0];
    for first in 0x21..0x21 + 63 {
        table.extend([255, first]);
        table.extend([b'a'; 254]);
    }
    table.push(last);
    table.extend(vec![0x7E; usize::from(last)]);
    table
}

/// 63 parts of 255 blanks, and a last one of so many.
fn blanks(last: u8) -> Vec<u8> {
    let mut parts = vec![64];
    for _ in 0..63 {
        parts.push(255);
        parts.extend([b' '; 255]);
    }
    parts.push(last);
    parts.extend(vec![b' '; usize::from(last)]);
    parts
}

#[test]
fn worked_examples_of_texts() {
    for (row, output) in TEXTS {
        ask(row, ROOM, *output);
    }
    // 16,384 bytes, and one more
    let number = Bytes("6E 75 6D 62 65 72");
    ask_bytes("names_display", &[&[0x22], &texts(253)], &number, 0, 6);
    ask_bytes("names_display", &[&[0x22], &texts(254)], &Refused(19), 0, 6);
    ask_bytes("names_name_new", &[&blanks(254)], &Bytes(""), 0, 0);
    ask_bytes("names_name_new", &[&blanks(255)], &Refused(19), 0, 0);
}

#[test]
fn every_row_of_differences() {
    for row in DIFFERENCES {
        ask(row, ROOM, ROOM);
    }
}
