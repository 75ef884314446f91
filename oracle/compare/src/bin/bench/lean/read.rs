//! The readers. A leaf is read where it stands; only a parent is a call.

/// The refusals by their distance from that of the length.
const FORM: u8 = 1;
const NAMES: u8 = 2;
const LEVEL: u8 = 3;
const LEFT_OVER: u8 = 4;

const MAX_LENGTH: usize = 16_384;

/// For commands 00 to 08: the width of the operands, and the highest first one.
const LEAVES: [(usize, u8); 9] = [
    (1, 3),
    (1, 1),
    (8, 255),
    (2, 255),
    (8, 255),
    (8, 255),
    (8, 255),
    (8, 255),
    (8, 255),
];

/// The level of a value, or the refusal.
pub fn read_value(v: &[u8]) -> Result<usize, u8> {
    whole(v, 31, value).map_err(|fault| 1 + fault)
}

/// The level of a type, or the refusal.
pub fn read_type(t: &[u8]) -> Result<usize, u8> {
    whole(t, 32, feel_type).map_err(|fault| 6 + fault)
}

/// Where a part ends, or the first fault from the left.
type End = Result<usize, u8>;

/// Length first, leftovers last.
fn whole(
    s: &[u8],
    most: usize,
    root: impl Fn(&[u8], usize, usize, &mut Levels) -> End,
) -> Result<usize, u8> {
    if s.is_empty() || s.len() > MAX_LENGTH {
        return Err(0);
    }
    let mut levels = Levels { most, deepest: 0 };
    if root(s, 0, 1, &mut levels)? < s.len() {
        return Err(LEFT_OVER);
    }
    Ok(levels.deepest)
}

struct Levels {
    most: usize,
    deepest: usize,
}

/// The command at `at` of something at this level.
fn command(s: &[u8], at: usize, level: usize, levels: &mut Levels) -> Result<u8, u8> {
    let command = s.get(at).ok_or(FORM)?;
    if level > levels.most {
        return Err(LEVEL);
    }
    levels.deepest = levels.deepest.max(level);
    Ok(*command)
}

#[inline(always)]
fn value(s: &[u8], at: usize, level: usize, levels: &mut Levels) -> End {
    let command = command(s, at, level, levels)?;
    let Some(&(width, most)) = LEAVES.get(usize::from(command)) else {
        return parent(command, s, at + 1, level + 1, levels);
    };
    let end = at + 1 + width;
    match s.get(at + 1..end) {
        Some(operands) if operands[0] <= most => Ok(end),
        _ => Err(FORM),
    }
}

/// Behind the command of a value that is none of the leaves above, its children at this level.
fn parent(command: u8, s: &[u8], at: usize, level: usize, levels: &mut Levels) -> End {
    match command {
        0x09 => {
            at_most(3, s, at)?;
            at_most(3, s, at + 1)?;
            let middle = value(s, at + 2, level, levels)?;
            value(s, middle, level, levels)
        }
        0x0A => {
            let mut end = at + 2;
            for _ in 0..word(s, at)? {
                end = value(s, end, level, levels)?;
            }
            Ok(end)
        }
        0x0B => {
            let mut end = at + 2;
            let mut least = 0;
            for _ in 0..word(s, at)? {
                least = next_name(s, end, least)?;
                end = value(s, end + 2, level, levels)?;
            }
            Ok(end)
        }
        0x0C => {
            let operands = s.get(at..at + 3).ok_or(FORM)?;
            let mut end = feel_type(s, at + 3, level, levels)?;
            for _ in 0..operands[0] {
                word(s, end)?;
                end = feel_type(s, end + 2, level, levels)?;
            }
            Ok(end)
        }
        0x0D => at_most(85, s, at),
        0x0E => feel_type(s, at, level, levels),
        0x0F => Ok(at),
        0x10 => at_most(18, s, at + 8),
        _ => Err(FORM),
    }
}

#[inline(always)]
fn feel_type(s: &[u8], at: usize, level: usize, levels: &mut Levels) -> End {
    match command(s, at, level, levels)? {
        0x20..=0x29 => Ok(at + 1),
        command => parent_type(command, s, at + 1, level + 1, levels),
    }
}

/// Behind the command of a type that is not simple, its children at this level.
fn parent_type(command: u8, s: &[u8], at: usize, level: usize, levels: &mut Levels) -> End {
    match command {
        0x2A | 0x2B => feel_type(s, at, level, levels),
        0x2C => {
            let mut end = at + 2;
            let mut least = 0;
            for _ in 0..word(s, at)? {
                least = next_name(s, end, least)?;
                end = feel_type(s, end + 2, level, levels)?;
            }
            Ok(end)
        }
        0x2D => {
            let count = s.get(at).ok_or(FORM)?;
            let mut end = at + 1;
            for _ in 0..=*count {
                end = feel_type(s, end, level, levels)?;
            }
            Ok(end)
        }
        _ => Err(FORM),
    }
}

/// An operand byte.
fn at_most(most: u8, s: &[u8], at: usize) -> End {
    match s.get(at) {
        Some(operand) if *operand <= most => Ok(at + 1),
        _ => Err(FORM),
    }
}

/// A 16-bit count or name.
fn word(s: &[u8], at: usize) -> Result<u16, u8> {
    match s.get(at..at + 2) {
        Some(bytes) => Ok(u16::from_le_bytes([bytes[0], bytes[1]])),
        None => Err(FORM),
    }
}

/// The least name that may follow the one that stands here, which is not below `least`.
fn next_name(s: &[u8], at: usize, least: u32) -> Result<u32, u8> {
    let name = u32::from(word(s, at)?);
    if name < least {
        Err(NAMES)
    } else {
        Ok(name + 1)
    }
}
