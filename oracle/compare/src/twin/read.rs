//! A second reader. It builds no tree and does not recurse: it keeps a stack of what is still to
//! come.

/// A command: the width of its operands, and what may follow.
#[derive(Clone, Copy)]
enum Command {
    Unknown,
    /// A leaf whose operand bytes are free.
    Free(usize),
    /// A leaf with one operand byte below the bound.
    Below(u8),
    /// A leaf with eight free operand bytes and one that is at most 18.
    Decimal,
    Range,
    List,
    Context,
    Definition,
    TypeValue,
    OneType,
    ContextType,
    Function,
}

const VALUES: [Command; 17] = [
    Command::Below(4),
    Command::Below(2),
    Command::Free(8),
    Command::Free(2),
    Command::Free(8),
    Command::Free(8),
    Command::Free(8),
    Command::Free(8),
    Command::Free(8),
    Command::Range,
    Command::List,
    Command::Context,
    Command::Definition,
    Command::Below(86),
    Command::TypeValue,
    Command::Free(0),
    Command::Decimal,
];

const TYPES: [Command; 14] = [
    Command::Free(0),
    Command::Free(0),
    Command::Free(0),
    Command::Free(0),
    Command::Free(0),
    Command::Free(0),
    Command::Free(0),
    Command::Free(0),
    Command::Free(0),
    Command::Free(0),
    Command::OneType,
    Command::OneType,
    Command::ContextType,
    Command::Function,
];

impl Command {
    fn width(self) -> usize {
        match self {
            Command::Unknown | Command::TypeValue | Command::OneType => 0,
            Command::Free(width) => width,
            Command::Below(_) | Command::Function => 1,
            Command::Range | Command::List | Command::Context | Command::ContextType => 2,
            Command::Definition => 3,
            Command::Decimal => 9,
        }
    }
}

/// Whether names stand before the children.
#[derive(Clone, Copy, PartialEq)]
enum Names {
    Absent,
    Free,
    /// Each must be at least this.
    From(u32),
}

/// Children that are still to come, all at one level.
struct Due {
    types: bool,
    names: Names,
    left: u32,
    level: u32,
}

/// The level of what `bytes` spell, or the refusal; `first` is the refusal of the length, and the
/// others follow it in the order of the table.
pub fn judge(bytes: &[u8], types: bool, max_level: u32, first: u64) -> Result<u32, u64> {
    let (form, order, level, left_over) = (first + 1, first + 2, first + 3, first + 4);
    if !(1..=16_384).contains(&bytes.len()) {
        return Err(first);
    }
    let word = |at: usize| u32::from(bytes[at]) | u32::from(bytes[at + 1]) << 8;
    let mut deepest = 0;
    let mut at = 0;
    let mut stack = vec![Due {
        types,
        names: Names::Absent,
        left: 1,
        level: 1,
    }];
    while let Some(due) = stack.last_mut() {
        if due.left == 0 {
            stack.pop();
            continue;
        }
        due.left -= 1;
        if due.names != Names::Absent {
            if at + 2 > bytes.len() {
                return Err(form);
            }
            if let Names::From(least) = due.names {
                if word(at) < least {
                    return Err(order);
                }
                due.names = Names::From(word(at) + 1);
            }
            at += 2;
        }
        if at == bytes.len() {
            return Err(form);
        }
        if due.level > max_level {
            return Err(level);
        }
        deepest = deepest.max(due.level);
        let command = match (due.types, bytes[at]) {
            (false, byte @ 0x00..=0x10) => VALUES[usize::from(byte)],
            (true, byte @ 0x20..=0x2D) => TYPES[usize::from(byte - 0x20)],
            _ => Command::Unknown,
        };
        let operands = at + 1;
        at = operands + command.width();
        if at > bytes.len() {
            return Err(form);
        }
        let below = due.level + 1;
        let mut then = |types, names, left| {
            stack.push(Due {
                types,
                names,
                left,
                level: below,
            })
        };
        match command {
            Command::Unknown => return Err(form),
            Command::Free(_) => {}
            Command::Below(bound) => {
                if bytes[operands] >= bound {
                    return Err(form);
                }
            }
            Command::Decimal => {
                if bytes[at - 1] > 18 {
                    return Err(form);
                }
            }
            Command::Range => {
                if bytes[operands] > 3 || bytes[operands + 1] > 3 {
                    return Err(form);
                }
                then(false, Names::Absent, 2);
            }
            Command::List => then(false, Names::Absent, word(operands)),
            Command::Context => then(false, Names::From(0), word(operands)),
            Command::Definition => {
                then(true, Names::Free, u32::from(bytes[operands]));
                then(true, Names::Absent, 1);
            }
            Command::TypeValue | Command::OneType => then(true, Names::Absent, 1),
            Command::ContextType => then(true, Names::From(0), word(operands)),
            Command::Function => then(true, Names::Absent, u32::from(bytes[operands]) + 1),
        }
    }
    if at < bytes.len() {
        return Err(left_over);
    }
    Ok(deepest)
}
