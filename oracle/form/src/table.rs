//! The members' own table of simple types, document 02's request K9: which of the ten simple types
//! conforms to which. Written from the document, and slow: a bound is found by trying every type.

use dsntk_feel::FeelType;

/// How many simple types there are.
const COUNT: usize = 10;

/// Where Any and Null stand in the order 20 to 29.
const ANY: usize = 0;
const NULL: usize = 9;

/// A table that loads: row conforms to column, in the order 20 to 29.
#[derive(Debug, Clone, Copy, PartialEq, Eq)]
pub struct Table([[bool; COUNT]; COUNT]);

impl Table {
    /// Document 01's relation: Null to everything, everything to Any, all others only to themselves.
    pub const FIXED: Table = Table(fixed());

    /// Loads a table, or refuses it: 26 length or byte wrong; 27 one of the order conditions fails;
    /// 28 two types lack a least common supertype.
    pub fn read(bytes: &[u8]) -> Result<Table, u8> {
        if bytes.len() != COUNT * COUNT || bytes.iter().any(|byte| *byte > 1) {
            return Err(26);
        }
        let mut table = Table([[false; COUNT]; COUNT]);
        for row in 0..COUNT {
            for column in 0..COUNT {
                table.0[row][column] = bytes[COUNT * row + column] == 1;
            }
        }
        if !table.is_order() {
            return Err(27);
        }
        let has_supertype = |a| (0..COUNT).all(|b| table.least_above(a, b).is_some());
        if !(0..COUNT).all(has_supertype) {
            return Err(28);
        }
        Ok(table)
    }

    /// The hundred bytes.
    pub fn bytes(&self) -> Vec<u8> {
        self.0
            .as_flattened()
            .iter()
            .map(|yes| u8::from(*yes))
            .collect()
    }

    /// Each type conforms to itself, Null to all and all to Any, no two types conform mutually, and
    /// conformance carries through a third.
    fn is_order(&self) -> bool {
        let all = || 0..COUNT;
        let to = |a: usize, b: usize| self.0[a][b];
        let itself = all().all(|a| to(a, a));
        let ends = all().all(|a| to(NULL, a) && to(a, ANY));
        let mutual = all().any(|a| all().any(|b| a != b && to(a, b) && to(b, a)));
        let carries = |a, b, c| !(to(a, b) && to(b, c)) || to(a, c);
        let carried = all().all(|a| all().all(|b| all().all(|c| carries(a, b, c))));
        itself && ends && !mutual && carried
    }

    /// The common supertype that conforms to every common supertype.
    fn least_above(&self, a: usize, b: usize) -> Option<usize> {
        let is_above = |u: usize| self.0[a][u] && self.0[b][u];
        let is_least = |u: usize| (0..COUNT).all(|w| !is_above(w) || self.0[u][w]);
        (0..COUNT).find(|u| is_above(*u) && is_least(*u))
    }

    /// The common subtype to which every common subtype conforms.
    fn greatest_below(&self, a: usize, b: usize) -> Option<usize> {
        let is_below = |u: usize| self.0[u][a] && self.0[u][b];
        let is_greatest = |u: usize| (0..COUNT).all(|w| !is_below(w) || self.0[w][u]);
        (0..COUNT).find(|u| is_below(*u) && is_greatest(*u))
    }

    /// Whether both are simple types and the first conforms to the second.
    pub fn conforms(&self, a: &FeelType, b: &FeelType) -> bool {
        matches!((place(a), place(b)), (Some(a), Some(b)) if self.0[a][b])
    }

    /// The least common supertype of two simple types; none where one is not simple.
    pub fn supertype(&self, a: &FeelType, b: &FeelType) -> Option<FeelType> {
        let least = self.least_above(place(a)?, place(b)?);
        Some(SIMPLE[least.expect("the table is loaded")].clone())
    }

    /// The greatest common subtype of two simple types; none where one is not simple.
    pub fn subtype(&self, a: &FeelType, b: &FeelType) -> Option<FeelType> {
        let greatest = self.greatest_below(place(a)?, place(b)?);
        Some(SIMPLE[greatest.expect("the table is loaded")].clone())
    }
}

const fn fixed() -> [[bool; COUNT]; COUNT] {
    let mut table = [[false; COUNT]; COUNT];
    let mut t = 0;
    while t < COUNT {
        table[t][t] = true;
        table[NULL][t] = true;
        table[t][ANY] = true;
        t += 1;
    }
    table
}

/// The simple types, 20 to 29.
const SIMPLE: [FeelType; COUNT] = [
    FeelType::Any,
    FeelType::Boolean,
    FeelType::Number,
    FeelType::String,
    FeelType::Date,
    FeelType::Time,
    FeelType::DateTime,
    FeelType::DaysAndTimeDuration,
    FeelType::YearsAndMonthsDuration,
    FeelType::Null,
];

/// Where a simple type stands; none where it is not simple.
fn place(t: &FeelType) -> Option<usize> {
    match t {
        FeelType::Any => Some(0),
        FeelType::Boolean => Some(1),
        FeelType::Number => Some(2),
        FeelType::String => Some(3),
        FeelType::Date => Some(4),
        FeelType::Time => Some(5),
        FeelType::DateTime => Some(6),
        FeelType::DaysAndTimeDuration => Some(7),
        FeelType::YearsAndMonthsDuration => Some(8),
        FeelType::Null => Some(9),
        _ => None,
    }
}
