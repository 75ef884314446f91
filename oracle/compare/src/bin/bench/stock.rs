//! The cases of each size: records with their trees, made when they are first wanted.

use crate::data;
use crate::measure::Given;
use dsntk_feel::context::FeelContext;
use dsntk_feel::values::Value;
use dsntk_feel::{FeelType, Name};
use feel_cases::{Kind, context_chain};
use feel_form::{name, read_type, read_value};
use std::cell::OnceCell;

/// The lengths of the records, from and to, in bytes.
#[derive(Clone, Copy)]
pub struct Size {
    pub name: &'static str,
    pub least: usize,
    pub most: usize,
}

/// The sizes, ascending.
pub const SIZES: [Size; 3] = [
    size("small", 25, 40),
    size("usual", 250, 350),
    size("largest", 12_000, 16_384),
];

const fn size(name: &'static str, least: usize, most: usize) -> Size {
    Size { name, least, most }
}

/// A record, and what the Rust reads from it.
pub struct Record<T> {
    pub bytes: Vec<u8>,
    pub tree: T,
}

impl<T> Given for Record<T> {
    fn length(&self) -> usize {
        self.bytes.len()
    }
}

/// The record of a value.
pub fn value(bytes: Vec<u8>) -> Record<Value> {
    let (tree, _) = read_value(&bytes).expect("accepted");
    Record { bytes, tree }
}

/// The record of a type.
pub fn feel_type(bytes: Vec<u8>) -> Record<FeelType> {
    let (tree, _) = read_type(&bytes).expect("accepted");
    Record { bytes, tree }
}

/// The record of a context.
pub fn context(bytes: Vec<u8>) -> Record<FeelContext> {
    let Record { bytes, tree } = value(bytes);
    let tree = FeelContext::try_from(tree).expect("a context");
    Record { bytes, tree }
}

/// The records of these bytes, by their reader. All bytes stand before the first tree: between the
/// trees they would be far from each other, and a small record would take the time of its way from
/// memory.
pub fn records<T>(bytes: impl Iterator<Item = Vec<u8>>, read: Reader<T>) -> Vec<Record<T>> {
    let bytes: Vec<Vec<u8>> = bytes.collect();
    bytes.into_iter().map(read).collect()
}

/// Makes a record of its bytes.
type Reader<T> = fn(Vec<u8>) -> Record<T>;

/// Two records.
pub struct Pair<A, B> {
    pub a: Record<A>,
    pub b: Record<B>,
}

/// The pairs of these bytes, as [records].
pub fn pairs<A, B>(
    bytes: impl Iterator<Item = [Vec<u8>; 2]>,
    read_a: Reader<A>,
    read_b: Reader<B>,
) -> Vec<Pair<A, B>> {
    let bytes: Vec<[Vec<u8>; 2]> = bytes.collect();
    let pair = |[a, b]: [Vec<u8>; 2]| Pair {
        a: read_a(a),
        b: read_b(b),
    };
    bytes.into_iter().map(pair).collect()
}

impl<A, B> Given for Pair<A, B> {
    fn length(&self) -> usize {
        self.a.length() + self.b.length()
    }
}

/// A context, where a call goes in it, and what is put there, if anything is.
pub struct Spot {
    pub c: Record<FeelContext>,
    pub path: Vec<u16>,
    pub names: Vec<Name>,
    pub put: Option<Record<Value>>,
}

impl Given for Spot {
    fn length(&self) -> usize {
        let put = self.put.as_ref().map_or(0, Given::length);
        self.c.length() + 2 * self.path.len() + put
    }
}

impl Spot {
    fn new(c: Vec<u8>, path: Vec<u16>) -> Spot {
        Spot {
            c: context(c),
            names: path.iter().map(|number| name(*number)).collect(),
            path,
            put: None,
        }
    }

    /// With this value to be put there.
    pub fn putting(self, v: &[u8]) -> Spot {
        Spot {
            put: Some(value(v.to_vec())),
            ..self
        }
    }

    /// What is put there: its bytes and its tree.
    pub fn put(&self) -> (&[u8], &Value) {
        let put = self.put.as_ref().expect("a value to be put");
        (&put.bytes, &put.tree)
    }
}

/// Contexts with these paths, as [records].
pub fn spots(places: impl Iterator<Item = (Vec<u8>, Vec<u16>)>) -> Vec<Spot> {
    let places: Vec<(Vec<u8>, Vec<u16>)> = places.collect();
    let spot = |(c, path)| Spot::new(c, path);
    places.into_iter().map(spot).collect()
}

/// The cases of one size that several calls have.
pub struct Stock {
    pub size: Size,
    values: OnceCell<Vec<Record<Value>>>,
    types: OnceCell<Vec<Record<FeelType>>>,
    data: OnceCell<Vec<Vec<u8>>>,
    inside: OnceCell<Vec<Vec<u8>>>,
    near: OnceCell<Vec<Pair<FeelType, FeelType>>>,
}

impl Stock {
    pub fn new(size: Size) -> Stock {
        Stock {
            size,
            values: OnceCell::new(),
            types: OnceCell::new(),
            data: OnceCell::new(),
            inside: OnceCell::new(),
            near: OnceCell::new(),
        }
    }

    /// Values of every kind.
    pub fn values(&self) -> &[Record<Value>] {
        let Size { least, most, .. } = self.size;
        self.values.get_or_init(|| {
            let bytes = data::records(Kind::Value, least, most);
            records(bytes.into_iter(), value)
        })
    }

    /// Types of every kind.
    pub fn types(&self) -> &[Record<FeelType>] {
        let Size { least, most, .. } = self.size;
        self.types.get_or_init(|| {
            let bytes = data::records(Kind::Type, least, most);
            records(bytes.into_iter(), feel_type)
        })
    }

    /// Types, each with one near it to which it conforms.
    pub fn near_types(&self) -> &[Pair<FeelType, FeelType>] {
        let Size { least, most, .. } = self.size;
        self.near.get_or_init(|| {
            let bytes = data::pairs(least, most);
            pairs(bytes.into_iter(), feel_type, feel_type)
        })
    }

    /// Contexts of data, the names counted from 0 on, with room for what is added.
    pub fn data(&self) -> &[Vec<u8>] {
        let Size { least, most, .. } = self.size;
        self.data
            .get_or_init(|| data::values(least, most.min(16_300)))
    }

    /// The same, each inside two contexts with the names 1 and 2.
    fn data_inside(&self) -> &[Vec<u8>] {
        let Size { least, most, .. } = self.size;
        self.inside.get_or_init(|| {
            let inside = |v: Vec<u8>| context_chain(1, 1, &context_chain(2, 1, &v));
            let values = data::values(least - 10, most.min(16_300) - 10).into_iter();
            values.map(inside).collect()
        })
    }

    /// Contexts with a path that starts from how many entries they have.
    pub fn spots(&self, path: impl Fn(u16) -> Vec<u16>) -> Vec<Spot> {
        let place = |c: &Vec<u8>| (c.clone(), path(count(c)));
        spots(self.data().iter().map(place))
    }

    /// Contexts with a path of three names, the last of which starts from how many entries the
    /// context has that stands inside two others.
    pub fn deep_spots(&self, last: impl Fn(u16) -> u16) -> Vec<Spot> {
        let place = |c: &Vec<u8>| (c.clone(), vec![1, 2, last(count(&c[10..]))]);
        spots(self.data_inside().iter().map(place))
    }
}

/// How many entries a context has.
fn count(c: &[u8]) -> u16 {
    u16::from_le_bytes([c[1], c[2]])
}
