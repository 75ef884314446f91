//! The updates of contexts, at their last entries.

use crate::data::named_values;
use crate::measure::{Measured, contest, nothing};
use crate::ours::{
    Both, Bytes, NameBuild, NamePut, NamesBuild, PathPut, ROOM, TwoBuild, both, name_build,
    name_put, names_build, path_put,
};
use crate::stock::{Pair, Size, Spot, Stock, context, pairs};
use crate::table::Table;
use crate::values::built;
use dsntk_feel::Name;
use dsntk_feel::context::FeelContext;
use dsntk_feel::values::Value;
use feel_form::contexts;

/// A value that is put into a context.
pub const PUT: [u8; 3] = [0x03, 7, 0];

/// Two contexts.
type Contexts = Pair<FeelContext, FeelContext>;

pub fn run(stocks: &[Stock], table: &mut Table) {
    table.each("context_create_entries", stocks, |stock| {
        creation(&new_inside(stock))
    });
    table.each("context_apply_entries", stocks, |stock| {
        application(&new_inside(stock))
    });
    table.each("context_zip", stocks, |stock| {
        let function = both!(feel_context_zip as TwoBuild);
        let rust = contexts::zip;
        made_one(&two_contexts(stock), function, rust, FeelContext::zip)
    });
    table.each("context_overwrite", stocks, |stock| {
        let function = both!(feel_context_overwrite as TwoBuild);
        let (rust, ready) = (contexts::overwrite, FeelContext::overwrite);
        made_one(&two_contexts(stock), function, rust, ready)
    });
    table.each("context_move_entry", stocks, |stock| {
        // The last entry, below a new parent behind all others.
        moving(&stock.spots(|count| vec![count - 1, count]))
    });
    table.each("context_set_entry", stocks, |stock| {
        let spots = stock.spots(|count| vec![count - 1]).into_iter();
        let spots: Vec<Spot> = spots.map(|spot| spot.putting(&PUT)).collect();
        setting(&spots)
    });
    table.each("context_remove_entry", stocks, |stock| {
        let function = both!(feel_context_remove_entry as NameBuild);
        at_last(stock, function, contexts::remove_entry, |c, name| {
            c.remove_entry(name);
        })
    });
    table.each("context_set_null", stocks, |stock| {
        let function = both!(feel_context_set_null as NameBuild);
        let rust = contexts::set_null;
        at_last(stock, function, rust, |c, name| c.set_null(name.clone()))
    });
}

/// A new entry behind the last, three contexts inside.
fn new_inside(stock: &Stock) -> Vec<Spot> {
    let spots = stock.deep_spots(|count| count).into_iter();
    spots.map(|spot| spot.putting(&PUT)).collect()
}

/// `context_create_entries`.
pub fn creation(spots: &[Spot]) -> Measured {
    let function = both!(feel_context_create_entries as PathPut);
    let rust = contexts::create_entries;
    entries(spots, function, rust, FeelContext::create_entries)
}

/// `context_apply_entries`.
pub fn application(spots: &[Spot]) -> Measured {
    let apply = |c: &mut FeelContext, names: &[Name], v| {
        c.apply_entries(names, v).expect("contexts on the way");
    };
    let function = both!(feel_context_apply_entries as PathPut);
    entries(spots, function, contexts::apply_entries, apply)
}

/// A value put at the end of a path.
fn entries(
    spots: &[Spot],
    function: Both<PathPut>,
    rust: fn(&[u8], &[u16], &[u8], usize) -> Bytes,
    ready: impl Fn(&mut FeelContext, &[Name], Value),
) -> Measured {
    let mut out = vec![0; ROOM];
    contest(
        spots,
        function,
        |f, spot| path_put(f, &spot.c.bytes, &spot.path, spot.put().0, &mut out),
        |spot| rust(&spot.c.bytes, &spot.path, spot.put().0, ROOM),
        nothing(),
        Some(|spot: &Spot| {
            let mut copy = spot.c.tree.clone();
            ready(&mut copy, &spot.names, spot.put().1.clone());
            copy
        }),
    )
}

/// Contexts of the size, each with one of a quarter of the size of whose names some are equal. Both
/// fit together into a record.
fn two_contexts(stock: &Stock) -> Vec<Contexts> {
    let Size { least, most, .. } = stock.size;
    let own = named_values(least, most.min(12_288), 2).into_iter();
    let others = named_values(least / 4, 20.max(most / 4), 3);
    let bytes = own.zip(others).map(|(c, other)| [c, other]);
    pairs(bytes, context, context)
}

/// Two contexts made one.
fn made_one(
    pairs: &[Contexts],
    function: Both<TwoBuild>,
    rust: fn(&[u8], &[u8], usize) -> Bytes,
    ready: fn(&mut FeelContext, &FeelContext),
) -> Measured {
    built(pairs, function, rust, |pair: &Contexts| {
        let mut copy = pair.a.tree.clone();
        ready(&mut copy, &pair.b.tree);
        copy
    })
}

/// `context_move_entry`; the path has the name and the parent.
pub fn moving(spots: &[Spot]) -> Measured {
    let mut out = vec![0; ROOM];
    contest(
        spots,
        both!(feel_context_move_entry as NamesBuild),
        |f, spot| names_build(f, &spot.c.bytes, [spot.path[0], spot.path[1]], &mut out),
        |spot| contexts::move_entry(&spot.c.bytes, spot.path[0], spot.path[1], ROOM),
        nothing(),
        Some(|spot: &Spot| {
            let mut copy = spot.c.tree.clone();
            copy.move_entry(spot.names[0].clone(), spot.names[1].clone());
            copy
        }),
    )
}

/// `context_set_entry`.
pub fn setting(spots: &[Spot]) -> Measured {
    let mut out = vec![0; ROOM];
    contest(
        spots,
        both!(feel_context_set_entry as NamePut),
        |f, spot| name_put(f, &spot.c.bytes, spot.path[0], spot.put().0, &mut out),
        |spot| contexts::set_entry(&spot.c.bytes, spot.path[0], spot.put().0, ROOM),
        nothing(),
        Some(|spot: &Spot| {
            let mut copy = spot.c.tree.clone();
            copy.set_entry(&spot.names[0], spot.put().1.clone());
            copy
        }),
    )
}

/// An update of the last entry that needs no value.
fn at_last(
    stock: &Stock,
    function: Both<NameBuild>,
    rust: fn(&[u8], u16, usize) -> Bytes,
    ready: fn(&mut FeelContext, &Name),
) -> Measured {
    let mut out = vec![0; ROOM];
    contest(
        &stock.spots(|count| vec![count - 1]),
        function,
        |f, spot| name_build(f, &spot.c.bytes, spot.path[0], &mut out),
        |spot| rust(&spot.c.bytes, spot.path[0], ROOM),
        nothing(),
        Some(|spot: &Spot| {
            let mut copy = spot.c.tree.clone();
            ready(&mut copy, &spot.names[0]);
            copy
        }),
    )
}
