//! What is counted in the section.

use crate::strict::{ValueWay, Verdict, Way};
use feel_cases::{
    ANY, Holder, NULL, Random, Step, TABLE_SHAPES, TableFault, TableShape, Tree, shaped_table,
    table_has,
};
use std::cmp::Ordering;

/// Sorts of classes with a title.
pub type Classes = Vec<(&'static str, Vec<Class>)>;

#[derive(Debug, Clone, Copy, PartialEq, Eq, PartialOrd, Ord)]
pub enum Class {
    /// A table of this shape.
    Shape(TableShape),
    /// A random order, and whether it loads.
    Order(bool),
    /// A table with this fault.
    Fault(TableFault),
    /// Every relation among four types: whether it loads, or its refusal.
    Among(Option<u8>),
    /// A table that loads with one bit turned, and what comes of it.
    Turned(Option<u8>),
    /// Each two simple types over a table of a shape.
    Two(TableShape, u8, u8),
    /// The way to two simple types, and how they stand to each other.
    Way(Way, Relation),
    /// The same at the end of one step taken again and again, the types of this level.
    Deep(Step, usize, Relation),
    /// A record of about 16,384 bytes, and which of its kinds.
    Long(usize),
    /// A value of a simple kind at the end of a way into a value, beside a simple type there.
    Leaf(ValueWay, Relation),
    /// A function definition at the end of a way, and a simple type at this place in it.
    Definition(ValueWay, Place, Relation),
    /// Two values of simple kinds in one value, at the end of a way.
    Held(Holder, ValueWay, Relation),
    /// So many values of simple kinds in one list.
    Mixed(usize),
    /// A value with this command at the end of a way, beside a type with this one.
    Other(ValueWay, u8, u8),
    /// A value with this command, which has no least type, at the end of a way.
    NoLeast(ValueWay, u8),
    /// Random records near each other by the table.
    Random(usize),
    /// The argument at this place is damaged.
    Damaged(usize),
    /// Scratch and output beside what is wanted.
    Buffers(Ordering, Ordering),
    Verdict(Verdict),
}

/// How two simple types stand to each other in a table.
#[derive(Debug, Clone, Copy, PartialEq, Eq, PartialOrd, Ord)]
pub enum Relation {
    Equal,
    /// Of two types between Null and Any the first is below the second.
    Below,
    Above,
    /// Neither conforms to the other.
    Beside,
    NullFirst,
    NullSecond,
    AnyFirst,
    AnySecond,
    /// One of both is no simple type.
    OtherFirst,
    OtherSecond,
}

pub const RELATIONS: [Relation; 10] = [
    Relation::Equal,
    Relation::Below,
    Relation::Above,
    Relation::Beside,
    Relation::NullFirst,
    Relation::NullSecond,
    Relation::AnyFirst,
    Relation::AnySecond,
    Relation::OtherFirst,
    Relation::OtherSecond,
];

/// A place in a function definition.
#[derive(Debug, Clone, Copy, PartialEq, Eq, PartialOrd, Ord)]
pub enum Place {
    Parameter,
    Result,
    /// The result of a definition without parameters.
    LoneResult,
    /// The result of a parameterless function that is the result.
    Inside,
}

pub const PLACES: [Place; 4] = [
    Place::Parameter,
    Place::Result,
    Place::LoneResult,
    Place::Inside,
];

impl Relation {
    /// Whether the first conforms to the second, and the second to the first.
    pub fn conforms(self) -> [bool; 2] {
        match self {
            Relation::Equal => [true, true],
            Relation::Below | Relation::NullFirst | Relation::AnySecond => [true, false],
            Relation::Above | Relation::NullSecond | Relation::AnyFirst => [false, true],
            Relation::Beside | Relation::OtherFirst | Relation::OtherSecond => [false, false],
        }
    }

    /// A table, its shape, and two types that stand so in it.
    pub fn pair(self, random: &mut Random) -> (TableShape, Vec<u8>, [Tree; 2]) {
        loop {
            let shape = random.pick(&TABLE_SHAPES);
            let table = shaped_table(shape, random);
            let [a, b] = [0; 2].map(|_| 0x21 + random.below(8) as u8);
            let (up, down) = (table_has(&table, a, b), table_has(&table, b, a));
            let fits = match self {
                Relation::Below => up && a != b,
                Relation::Above => down && a != b,
                Relation::Beside => !up && !down,
                _ => true,
            };
            if !fits {
                continue;
            }
            let (a, b) = (Tree::Simple(a), Tree::Simple(b));
            let two = match self {
                Relation::Equal => [a.clone(), a],
                Relation::Below | Relation::Above | Relation::Beside => [a, b],
                Relation::NullFirst => [NULL, b],
                Relation::NullSecond => [a, NULL],
                Relation::AnyFirst => [ANY, b],
                Relation::AnySecond => [a, ANY],
                Relation::OtherFirst => [parent(a, random), b],
                Relation::OtherSecond => {
                    let other = parent(b, random);
                    [a, other]
                }
            };
            return (shape, table, two);
        }
    }
}

/// A type that is not simple, with this one inside.
fn parent(inner: Tree, random: &mut Random) -> Tree {
    match random.below(5) {
        0 => Tree::One(0x2A, Box::new(inner)),
        1 => Tree::One(0x2B, Box::new(inner)),
        2 => Tree::Context(vec![(random.below(3) as u16, inner)]),
        3 => Tree::Function(vec![], Box::new(inner)),
        _ => Tree::Function(vec![inner.clone()], Box::new(inner)),
    }
}
