//! Updates near level 31: paths of many names through contexts inside each other, results that are
//! too deep, and moves in large contexts.

use crate::data::{SET, named_values, random};
use crate::measure::{Measured, Refusal, contest, nothing};
use crate::others::with_last;
use crate::ours::{Both, Bytes, PathPut, ROOM, both, path_put};
use crate::stock::{Spot, spots};
use crate::table::Table;
use crate::updates::{PUT, application, creation, moving};
use feel_cases::{Parts, Random, ValueTree, context_chain, null};
use feel_form::contexts;

/// The entries of each context on the way.
const ENTRIES: usize = 7;

pub fn run(table: &mut Table) {
    for (call, measure) in [
        ("context_create_entries", creation as Measure),
        ("context_apply_entries", application),
    ] {
        // To a leaf that is there: with three entries before and after each name, and with six before.
        table.one_at(call, "deep-30", || {
            measure(&putting(&PUT, leaves(ENTRIES / 2)))
        });
        table.one_at(call, "last-30", || {
            measure(&putting(&PUT, leaves(ENTRIES - 1)))
        });
        table.one_at(call, "new-10", || measure(&putting(&PUT, new_names())));
    }
    table.one_at("context_create_entries", "over-31", || {
        let function = both!(feel_context_create_entries as PathPut);
        too_deep(function, contexts::create_entries)
    });
    table.one_at("context_apply_entries", "over-31", || {
        let function = both!(feel_context_apply_entries as PathPut);
        too_deep(function, contexts::apply_entries)
    });
    // The last entry, below a new parent behind it.
    for (place, v) in [
        ("deep-value", context_chain(1, 28, &PUT)),
        ("leaf", PUT.to_vec()),
    ] {
        table.one_at("context_move_entry", place, || {
            let contexts = named_values(12_000, 12_288, 1).into_iter();
            let names = |c: Vec<u8>| {
                let count = u16::from_le_bytes([c[1], c[2]]);
                (with_last(&c, &v), vec![count, count + 1])
            };
            moving(&spots(contexts.map(names)))
        });
    }
}

/// Measures a call.
type Measure = fn(&[Spot]) -> Measured;

/// A context, and a path into it.
type Place = (Vec<u8>, Vec<u16>);

/// With this value to be put there.
fn putting(v: &[u8], places: Vec<Place>) -> Vec<Spot> {
    let spots = spots(places.into_iter()).into_iter();
    spots.map(|spot| spot.putting(v)).collect()
}

/// Paths of 29 and of 30 names to a leaf.
fn leaves(place: usize) -> Vec<Place> {
    let mut names = [29, 30].into_iter().cycle();
    set(|random| nested(names.next().unwrap_or(30), place, 2, random))
}

/// Paths of 25 names, of which the last ten are new.
fn new_names() -> Vec<Place> {
    set(|random| {
        let (c, mut path) = nested(30, ENTRIES / 2, 2, random);
        path.truncate(15);
        path.resize(25, NEW);
        (c, path)
    })
}

/// Values of level 13 at the end of 20 names, in contexts of about 12,000 bytes: refused 17.
fn too_deep(function: Both<PathPut>, rust: fn(&[u8], &[u16], &[u8], usize) -> Bytes) -> Measured {
    let places = set(|random| {
        loop {
            let place = nested(20, ENTRIES / 2, 30, random);
            if (11_500..=12_500).contains(&place.0.len()) {
                return place;
            }
        }
    });
    let mut out = vec![0; ROOM];
    contest(
        &putting(&context_chain(1, 12, &PUT), places),
        function,
        |f, spot| path_put(f, &spot.c.bytes, &spot.path, spot.put().0, &mut out),
        |spot| Refusal::of(rust(&spot.c.bytes, &spot.path, spot.put().0, ROOM)),
        nothing(),
        nothing(),
    )
}

/// As many as a set has.
fn set(mut place: impl FnMut(&mut Random) -> Place) -> Vec<Place> {
    let mut random = random();
    let mut places: Vec<Place> = vec![];
    let mut bytes = 0;
    while bytes < SET {
        places.push(place(&mut random));
        bytes += places[places.len() - 1].0.len();
    }
    places
}

/// A name between those of the entries.
const NEW: u16 = 39;

/// So many contexts inside each other with a leaf inside, and the path to it. Its entry has the same
/// place in each of them, beside entries of about so many nodes.
fn nested(names: usize, place: usize, nodes: usize, random: &mut Random) -> Place {
    let mut tree = ValueTree::Leaf(PUT.to_vec());
    let mut path = vec![];
    for above in 1..=names {
        let number = |entry: usize, random: &mut Random| (10 * entry + random.below(9)) as u16;
        let name = number(place, random);
        let beside = |entry| {
            let mut v = ValueTree::random(above.min(4), nodes, Parts::Data, random);
            if v.level() > above {
                v = null();
            }
            (number(entry, random), v)
        };
        let mut entries: Vec<_> = (0..ENTRIES).map(beside).collect();
        entries[place] = (name, tree);
        tree = ValueTree::Context(entries);
        path.insert(0, name);
    }
    (tree.bytes(), path)
}
