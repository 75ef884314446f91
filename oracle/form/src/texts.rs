//! Names and texts: a 16-bit number stands for its five-digit decimal string, so that the order of
//! the strings is the order of the numbers.

use dsntk_feel::Name;

/// The text with this number.
pub fn text(number: u16) -> String {
    format!("{number:05}")
}

/// The name with this number.
pub fn name(number: u16) -> Name {
    Name::from(text(number))
}

/// The number of a text. Panics on a text that is not five decimal digits of a 16-bit number.
pub fn text_number(text: &str) -> u16 {
    let five_digits = text.len() == 5 && text.bytes().all(|byte| byte.is_ascii_digit());
    let number = text.parse().ok().filter(|_| five_digits);
    number.unwrap_or_else(|| panic!("no number has the text {text:?}"))
}

/// The number of a name. Panics where [text_number] does.
pub fn name_number(name: &Name) -> u16 {
    text_number(name.as_str())
}
