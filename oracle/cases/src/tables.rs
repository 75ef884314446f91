//! Tables of the ten simple types: a hundred bytes 0 or 1, row conforms to column, in the order 20 to
//! 29. Orders of many shapes that have least common supertypes, random orders, and tables with a fault.
//! Types and values near others by such a table.

use crate::{Move, NULL, Random, Tree, ValueTree, decimal, null, whole};

/// How many simple types there are, and where Any and Null stand among them.
const COUNT: usize = 10;
const ANY_PLACE: usize = 0;
const NULL_PLACE: usize = 9;

/// The eight types between Null and Any.
const INNER: [usize; 8] = [1, 2, 3, 4, 5, 6, 7, 8];

/// A shape of the order among the eight types between Null and Any. Every two types have a least common
/// supertype in it. Which type stands where is random.
#[derive(Debug, Clone, Copy, PartialEq, Eq, PartialOrd, Ord)]
pub enum TableShape {
    /// No two of them conform: document 01's relation.
    Fixed,
    /// A date is a date and time, and nothing else.
    DateBelow,
    /// Two to eight of them one above the other.
    Chain,
    /// One below two that are below a fourth.
    Diamond,
    /// One below a chain of two and beside it a third, all below a fifth.
    Pentagon,
    /// One below three to six that are below another.
    Bundle,
    /// Each has at most one right above it.
    Tree,
    /// Each has at most one right below it.
    TurnedTree,
    /// Two chains multiplied, two by two up to two by four.
    Grid,
    /// All eight as the subsets of three things.
    Cube,
}

pub const TABLE_SHAPES: [TableShape; 10] = [
    TableShape::Fixed,
    TableShape::DateBelow,
    TableShape::Chain,
    TableShape::Diamond,
    TableShape::Pentagon,
    TableShape::Bundle,
    TableShape::Tree,
    TableShape::TurnedTree,
    TableShape::Grid,
    TableShape::Cube,
];

/// What is wrong with a table.
#[derive(Debug, Clone, Copy, PartialEq, Eq, PartialOrd, Ord)]
pub enum TableFault {
    Empty,
    /// 99 bytes.
    Short,
    /// 101 bytes.
    Long,
    /// Any other length.
    Length,
    /// A byte 2.
    Two,
    /// A byte from 3 on.
    Byte,
    /// A type that does not conform to itself.
    Diagonal,
    /// A type to which Null does not conform.
    NullRow,
    /// A type that does not conform to Any.
    AnyColumn,
    /// Two types between Null and Any that conform mutually.
    Mutual,
    /// A type to which Any conforms, or that conforms to Null.
    MutualEnd,
    /// Conformance that does not carry through a third type.
    Carried,
    /// Two types with two least supertypes beside each other.
    TwoAbove,
    /// No order, and two types without a least common supertype.
    OrderFirst,
    /// A byte wrong, and no order.
    ByteFirst,
    /// A length wrong, and two types without a least common supertype.
    LengthFirst,
}

pub const TABLE_FAULTS: [TableFault; 16] = [
    TableFault::Empty,
    TableFault::Short,
    TableFault::Long,
    TableFault::Length,
    TableFault::Two,
    TableFault::Byte,
    TableFault::Diagonal,
    TableFault::NullRow,
    TableFault::AnyColumn,
    TableFault::Mutual,
    TableFault::MutualEnd,
    TableFault::Carried,
    TableFault::TwoAbove,
    TableFault::OrderFirst,
    TableFault::ByteFirst,
    TableFault::LengthFirst,
];

impl TableFault {
    /// The number of its refusal.
    pub fn refusal(self) -> u8 {
        use TableFault::{
            AnyColumn, Byte, ByteFirst, Carried, Diagonal, Empty, Length, LengthFirst, Long,
            Mutual, MutualEnd, NullRow, OrderFirst, Short, Two, TwoAbove,
        };
        match self {
            Empty | Short | Long | Length | Two | Byte | ByteFirst | LengthFirst => 26,
            Diagonal | NullRow | AnyColumn | Mutual | MutualEnd | Carried | OrderFirst => 27,
            TwoAbove => 28,
        }
    }
}

/// Where in the bytes it stands that one type conforms to another.
fn at(row: usize, column: usize) -> usize {
    COUNT * row + column
}

/// Whether a simple type conforms to another, both as commands, in a table of a hundred bytes.
pub fn table_has(table: &[u8], a: u8, b: u8) -> bool {
    table[at(usize::from(a - 0x20), usize::from(b - 0x20))] == 1
}

/// Document 01's relation.
pub fn fixed_table() -> Vec<u8> {
    let mut table = vec![0; COUNT * COUNT];
    for t in 0..COUNT {
        for (row, column) in [(t, t), (NULL_PLACE, t), (t, ANY_PLACE)] {
            table[at(row, column)] = 1;
        }
    }
    table
}

/// The least order in which each first type conforms to the second.
pub fn table_with(pairs: &[(usize, usize)]) -> Vec<u8> {
    let mut table = fixed_table();
    for (below, above) in pairs {
        table[at(*below, *above)] = 1;
    }
    for third in INNER {
        for row in INNER {
            for column in INNER {
                table[at(row, column)] |= table[at(row, third)] & table[at(third, column)];
            }
        }
    }
    table
}

/// The eight types between Null and Any in a random order.
fn shuffled(random: &mut Random) -> [usize; 8] {
    let mut types = INNER;
    for place in 1..types.len() {
        types.swap(place, random.below(place + 1));
    }
    types
}

/// A table of this shape.
pub fn shaped_table(shape: TableShape, random: &mut Random) -> Vec<u8> {
    let t = shuffled(random);
    let mut pairs = vec![];
    match shape {
        TableShape::Fixed => {}
        TableShape::DateBelow => pairs.push((4, 6)),
        TableShape::Chain => {
            let count = 2 + random.below(7);
            pairs.extend((1..count).map(|place| (t[place - 1], t[place])));
        }
        TableShape::Diamond => {
            pairs.extend([(t[0], t[1]), (t[0], t[2]), (t[1], t[3]), (t[2], t[3])]);
            // The others stand alone, or in a chain of their own.
            if random.below(2) == 0 {
                pairs.extend([(t[4], t[5]), (t[5], t[6])]);
            }
        }
        TableShape::Pentagon => pairs.extend([
            (t[0], t[1]),
            (t[1], t[2]),
            (t[2], t[4]),
            (t[0], t[3]),
            (t[3], t[4]),
        ]),
        TableShape::Bundle => {
            let count = 3 + random.below(4);
            pairs.extend((1..=count).flat_map(|place| [(t[0], t[place]), (t[place], t[7])]));
        }
        TableShape::Tree | TableShape::TurnedTree => {
            for place in 1..t.len() {
                let (own, other) = (t[place], t[random.below(place)]);
                match shape {
                    _ if random.below(4) == 0 => {}
                    TableShape::Tree => pairs.push((own, other)),
                    _ => pairs.push((other, own)),
                }
            }
        }
        TableShape::Grid => {
            let length = 2 + random.below(3);
            for place in 0..length {
                pairs.push((t[place], t[length + place]));
                if place > 0 {
                    pairs.push((t[place - 1], t[place]));
                    pairs.push((t[length + place - 1], t[length + place]));
                }
            }
        }
        TableShape::Cube => {
            for place in 0..8 {
                let larger = [1, 2, 4].map(|bit| place | bit);
                pairs.extend(larger.map(|larger| (t[place], t[larger])));
            }
        }
    }
    table_with(&pairs)
}

/// A random order: what is drawn goes upwards and is carried on. Two types may lack a least common
/// supertype.
pub fn random_order(random: &mut Random) -> Vec<u8> {
    let t = shuffled(random);
    let one_in = random.pick(&[2, 3, 4, 6, 10]);
    let mut pairs = vec![];
    for above in 1..t.len() {
        for below in 0..above {
            if random.below(one_in) == 0 {
                pairs.push((t[below], t[above]));
            }
        }
    }
    table_with(&pairs)
}

/// A table that loads.
pub fn any_table(random: &mut Random) -> Vec<u8> {
    let shape = random.pick(&TABLE_SHAPES);
    shaped_table(shape, random)
}

/// Two types below two others, at times one more below one of them, and one above both.
fn two_above(random: &mut Random) -> Vec<u8> {
    let t = shuffled(random);
    let mut pairs = vec![(t[0], t[2]), (t[0], t[3]), (t[1], t[2]), (t[1], t[3])];
    if random.below(2) == 0 {
        pairs.push((t[4], t[random.below(4)]));
    }
    if random.below(2) == 0 {
        pairs.extend([(t[2], t[5]), (t[3], t[5])]);
    }
    if random.below(3) == 0 {
        pairs.push((t[6], t[7]));
    }
    table_with(&pairs)
}

/// A table with this fault.
pub fn faulty_table(fault: TableFault, random: &mut Random) -> Vec<u8> {
    let t = shuffled(random);
    let mut table = match fault {
        TableFault::TwoAbove | TableFault::OrderFirst | TableFault::LengthFirst => {
            two_above(random)
        }
        TableFault::Carried => {
            let count = 3 + random.below(6);
            let pairs: Vec<_> = (1..count).map(|n| (t[n - 1], t[n])).collect();
            table_with(&pairs)
        }
        _ => any_table(random),
    };
    let any_length = |random: &mut Random| loop {
        let length = random.pick(&[
            1, 10, 50, 64, 98, 102, 110, 121, 128, 200, 256, 1_000, 16_385,
        ]);
        if random.below(4) == 0 || length < 1_000 {
            return length;
        }
    };
    match fault {
        TableFault::Empty => table.clear(),
        TableFault::Short => table.truncate(99),
        TableFault::Long => table.push(random.below(2) as u8),
        TableFault::Length | TableFault::LengthFirst => {
            let length = any_length(random);
            table.resize(length, random.below(2) as u8);
        }
        TableFault::Two => table[random.below(100)] = 2,
        TableFault::Byte => {
            table[random.below(100)] =
                random.pick(&[3, 4, 0x10, 0x20, 0x29, 0x7F, 0x80, 0x81, 0xFE, 0xFF]);
        }
        TableFault::Diagonal => {
            let own = random.below(COUNT);
            table[at(own, own)] = 0;
        }
        TableFault::NullRow => table[at(NULL_PLACE, random.below(9))] = 0,
        TableFault::AnyColumn => table[at(1 + random.below(9), ANY_PLACE)] = 0,
        TableFault::Mutual => {
            table[at(t[0], t[1])] = 1;
            table[at(t[1], t[0])] = 1;
        }
        TableFault::MutualEnd => match random.below(2) {
            0 => table[at(ANY_PLACE, 1 + random.below(9))] = 1,
            _ => table[at(random.below(9), NULL_PLACE)] = 1,
        },
        TableFault::Carried => {
            // Of a chain of three or more: the first and the last conform no longer.
            let above = (2..8).take_while(|n| table[at(t[0], t[*n])] == 1);
            let last = above.last().expect("a chain of three");
            table[at(t[0], t[last])] = 0;
        }
        TableFault::TwoAbove => {}
        TableFault::OrderFirst => {
            let own = random.below(COUNT);
            table[at(own, own)] = 0;
        }
        TableFault::ByteFirst => {
            table[at(NULL_PLACE, 5)] = 0;
            table[random.below(100)] = 2 + random.below(254) as u8;
        }
    }
    table
}

/// A simple type that is one of those to which this one conforms, or that conform to it, or any.
pub fn related(t: u8, table: &[u8], how: Move, random: &mut Random) -> u8 {
    let fits = |other: &u8| match how {
        Move::Up => table_has(table, t, *other),
        Move::Down => table_has(table, *other, t),
        Move::Free => true,
    };
    let all: Vec<u8> = (0x20..0x2A).filter(fits).collect();
    random.pick(&all)
}

/// A copy with about half of the simple types exchanged, by the table: above, below, or any; in a
/// function's parameters the other way.
pub fn near_simple(tree: &Tree, table: &[u8], how: Move, random: &mut Random) -> Tree {
    let mut of = |child: &Tree, how| near_simple(child, table, how, random);
    match tree {
        Tree::Simple(t) => match random.below(2) {
            0 => Tree::Simple(*t),
            _ => Tree::Simple(related(*t, table, how, random)),
        },
        Tree::One(command, inner) => Tree::One(*command, Box::new(of(inner, how))),
        Tree::Context(entries) => {
            let entry = |(name, child): &(u16, Tree)| (*name, of(child, how));
            Tree::Context(entries.iter().map(entry).collect())
        }
        Tree::Function(parameters, result) => {
            let turned = how.turned();
            let parameters: Vec<Tree> = parameters.iter().map(|p| of(p, turned)).collect();
            let how = if parameters.is_empty() {
                Move::Free
            } else {
                how
            };
            Tree::Function(parameters, Box::new(of(result, how)))
        }
    }
}

/// A value that has this simple type; of Any another list.
pub fn value_of(t: u8, random: &mut Random) -> ValueTree {
    let key = random.bits() as i64;
    let small = random.below(6) as i64 - 2;
    let key = random.pick(&[key, small, small]);
    match t {
        0x20 => ValueTree::List(vec![]),
        0x21 => ValueTree::Leaf(vec![0x01, random.below(2) as u8]),
        0x22 if random.below(2) == 0 => ValueTree::Leaf(decimal(key, random.below(19) as u8)),
        0x22 => ValueTree::Leaf(whole(key)),
        0x23 => ValueTree::Leaf(vec![0x03, random.byte(), random.byte()]),
        0x24..=0x28 => ValueTree::Leaf([&[t - 0x20], &key.to_le_bytes()[..]].concat()),
        _ => null(),
    }
}

/// A copy with about half of the leaves of data exchanged for values of types by the table, and the
/// simple types inside function definitions too.
pub fn near_leaves(value: &ValueTree, table: &[u8], how: Move, random: &mut Random) -> ValueTree {
    let mut of = |child: &ValueTree| near_leaves(child, table, how, random);
    match value {
        ValueTree::Leaf(bytes) => {
            let own = match bytes[0] {
                0x00 => NULL,
                0x10 => Tree::Simple(0x22),
                command @ 0x01..=0x08 => Tree::Simple(0x20 + command),
                _ => return value.clone(),
            };
            match near_simple(&own, table, how, random) {
                Tree::Simple(t) if t != 0x20 => value_of(t, random),
                _ => value.clone(),
            }
        }
        ValueTree::Range(bytes, ends) => {
            let ends = [of(&ends[0]), of(&ends[1])];
            ValueTree::Range(*bytes, Box::new(ends))
        }
        ValueTree::List(items) => ValueTree::List(items.iter().map(of).collect()),
        ValueTree::Context(entries) => {
            let entry = |(name, child): &(u16, ValueTree)| (*name, of(child));
            ValueTree::Context(entries.iter().map(entry).collect())
        }
        ValueTree::Definition(body, parameters, result) => {
            let mut of = |t: &Tree| near_simple(t, table, how, random);
            let parameter = |(name, t): &(u16, Tree)| (*name, of(t));
            let parameters = parameters.iter().map(parameter).collect();
            let result = near_simple(result, table, how, random);
            ValueTree::Definition(*body, parameters, result)
        }
        ValueTree::Type(t) => ValueTree::Type(near_simple(t, table, how, random)),
    }
}

#[cfg(test)]
mod tests {
    use super::*;

    /// Whether conformance carries through a third type.
    fn is_carried(table: &[u8]) -> bool {
        let to = |a, b| table[at(a, b)] == 1;
        let all = || 0..COUNT;
        all().all(|a| all().all(|b| all().all(|c| !(to(a, b) && to(b, c)) || to(a, c))))
    }

    #[test]
    fn tables_have_the_shape_of_an_order() {
        let mut random = Random::new(1);
        for _ in 0..500 {
            for shape in TABLE_SHAPES {
                let table = shaped_table(shape, &mut random);
                assert!(table.len() == 100 && is_carried(&table), "{shape:?}");
            }
            assert!(is_carried(&random_order(&mut random)));
            assert!(!is_carried(&faulty_table(TableFault::Carried, &mut random)));
        }
        let mut below = fixed_table();
        below[46] = 1;
        assert_eq!(shaped_table(TableShape::DateBelow, &mut random), below);
    }

    #[test]
    fn exchanged_types_stand_where_they_should() {
        let mut random = Random::new(2);
        for _ in 0..2_000 {
            let table = any_table(&mut random);
            let t = 0x20 + random.below(10) as u8;
            let up = related(t, &table, Move::Up, &mut random);
            let down = related(t, &table, Move::Down, &mut random);
            assert!(table_has(&table, t, up) && table_has(&table, down, t));
            let function = Tree::Function(vec![Tree::Simple(t)], Box::new(Tree::Simple(t)));
            let Tree::Function(parameters, result) =
                near_simple(&function, &table, Move::Up, &mut random)
            else {
                panic!("a function");
            };
            let (Tree::Simple(parameter), Tree::Simple(result)) = (&parameters[0], &*result) else {
                panic!("simple types");
            };
            assert!(table_has(&table, *parameter, t) && table_has(&table, t, *result));
            let v = value_of(t, &mut random);
            let shape = v.shape(&mut random);
            assert_eq!(
                shape.bytes(),
                if t == 0x20 { vec![0x2A, 0x29] } else { vec![t] }
            );
        }
    }
}
