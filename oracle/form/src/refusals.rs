//! The refusals in words.

/// What each refusal says, 1 to 20.
const WORDS: [&str; 20] = [
    "value: no bytes, or more than 16,384",
    "value: ends inside, unknown command, or an operand outside its list",
    "value: names not strictly ascending",
    "value: level over 31",
    "value: bytes left over",
    "type: no bytes, or more than 16,384",
    "type: ends inside, or unknown command",
    "type: names not strictly ascending",
    "type: level over 32",
    "type: bytes left over",
    "path: more than 31 names",
    "a context is wanted, and the value is none",
    "least type asked of a value that holds a function, a built-in, a type or an irrelevant mark",
    "scratch too short",
    "the value cannot be retrieved with the type",
    "a value on the way of the path is no context",
    "the result would have more than 16,384 bytes or a level over 31",
    "output too short for the answer",
    "texts: table or parts malformed, or with bytes left over",
    "texts: a name's number is not in the table",
];

/// What the refusals of a table of simple types say, 26 to 28.
const TABLE_WORDS: [&str; 3] = [
    "table: not a hundred bytes 0 or 1",
    "table: no order of the simple types from Null up to Any",
    "table: two types lack a least common supertype",
];

/// The words of a refusal, 1 to 20 or 26 to 28.
pub fn words(refusal: u8) -> &'static str {
    match refusal {
        26.. => TABLE_WORDS[usize::from(refusal) - 26],
        _ => WORDS[usize::from(refusal) - 1],
    }
}
