//! The questions on contexts. An entry is the first or the last one; a path is short and at the
//! front, or goes to the last entry three contexts inside.

use crate::lean;
use crate::measure::{Answer, Found, Measured, contest, nothing};
use crate::ours::{AtName, AtPath, Both, One, at_name, at_path, both, one};
use crate::stock::{Record, Spot, Stock, context, records};
use crate::table::Table;
use dsntk_feel::Name;
use dsntk_feel::context::FeelContext;
use feel_form::{contexts, name, read_value};

pub fn run(stocks: &[Stock], table: &mut Table) {
    let measure: FoundAtName = |spots| {
        // The place in the bytes, which the Rust does not give, is no part of its work.
        let rust = |c: &[u8], number| Found(read(c).get_entry(&name(number)).is_some());
        let lean = |c: &[u8], number| found(lean::context_get_entry(c, number));
        let ready = |c: &FeelContext, name: &Name| c.get_entry(name).is_some();
        let function = both!(feel_context_get_entry as AtName);
        of_name(spots, function, rust, Some(lean), ready)
    };
    first_and_last("context_get_entry", stocks, table, measure);
    front_and_deep("context_search_deep", stocks, table, search);
    table.each("context_get_first", stocks, |stock| {
        let rust = |c: &[u8]| Found(read(c).get_first().is_some());
        let ready = |c: &FeelContext| c.get_first().is_some();
        let function = both!(feel_context_get_first as One);
        whole(stock, function, rust, ready)
    });
    let measure: FoundAtName = |spots| {
        let (rust, ready) = (contexts::contains_entry, FeelContext::contains_entry);
        let function = both!(feel_context_contains_entry as AtName);
        of_name(spots, function, rust, None, ready)
    };
    first_and_last("context_contains_entry", stocks, table, measure);
    front_and_deep("context_contains_deep", stocks, table, |spots| {
        let (rust, ready) = (contexts::contains_deep, FeelContext::contains_deep);
        let function = both!(feel_context_contains_deep as AtPath);
        of_path(spots, function, rust, None, ready)
    });
    let measure: FoundAtName = |spots| {
        let (rust, ready) = (contexts::is_context, FeelContext::is_context);
        let function = both!(feel_context_is_context as AtName);
        of_name(spots, function, rust, None, ready)
    };
    first_and_last("context_is_context", stocks, table, measure);
    table.each("context_is_empty", stocks, |stock| {
        let function = both!(feel_context_is_empty as One);
        whole(stock, function, contexts::is_empty, FeelContext::is_empty)
    });
    table.each("context_len", stocks, |stock| {
        let function = both!(feel_context_len as One);
        whole(stock, function, contexts::len, FeelContext::len)
    });
}

/// Measures a call with one name.
type FoundAtName = fn(&[Spot]) -> Measured;

/// The lean Rust with a name, and with a path.
type LeanAtName = fn(&[u8], u16) -> Found;
type LeanAtPath = fn(&[u8], &[u16]) -> Found;

/// Whether the lean Rust found a part of the bytes.
fn found(part: Result<Option<&[u8]>, u8>) -> Found {
    Found(part.is_ok_and(|part| part.is_some()))
}

/// `context_search_deep`.
pub fn search(spots: &[Spot]) -> Measured {
    let rust = |c: &[u8], path: &[u16]| {
        let names: Vec<Name> = path.iter().map(|number| name(*number)).collect();
        Found(read(c).search_deep(&names).is_some())
    };
    let lean = |c: &[u8], path: &[u16]| found(lean::context_search_deep(c, path));
    let ready = |c: &FeelContext, names: &[Name]| c.search_deep(names).is_some();
    let function = both!(feel_context_search_deep as AtPath);
    of_path(spots, function, rust, Some(lean), ready)
}

/// The rows of a call with a name.
fn first_and_last(call: &'static str, stocks: &[Stock], table: &mut Table, measure: FoundAtName) {
    table.each_at(call, "first", stocks, |stock| {
        measure(&stock.spots(|_| vec![0]))
    });
    table.each_at(call, "last", stocks, |stock| {
        measure(&stock.spots(|count| vec![count - 1]))
    });
}

/// The rows of a call with a path.
fn front_and_deep(
    call: &'static str,
    stocks: &[Stock],
    table: &mut Table,
    measure: impl Fn(&[Spot]) -> Measured,
) {
    table.each_at(call, "front", stocks, |stock| {
        measure(&stock.spots(|_| vec![0]))
    });
    table.each_at(call, "deep", stocks, |stock| {
        measure(&stock.deep_spots(|count| count - 1))
    });
}

/// A question on a context, beside the Rust from the bytes and on the tree.
fn whole<A: Answer, T>(
    stock: &Stock,
    function: Both<One>,
    rust: impl Fn(&[u8]) -> A,
    ready: impl Fn(&FeelContext) -> T,
) -> Measured {
    let all = records(stock.data().iter().cloned(), context);
    contest(
        &all,
        function,
        |f, c| one(f, &c.bytes),
        |c| rust(&c.bytes),
        nothing(),
        Some(|c: &Record<FeelContext>| ready(&c.tree)),
    )
}

/// The same with a name.
fn of_name<A: Answer, T>(
    spots: &[Spot],
    function: Both<AtName>,
    rust: impl Fn(&[u8], u16) -> A,
    lean: Option<LeanAtName>,
    ready: impl Fn(&FeelContext, &Name) -> T,
) -> Measured {
    contest(
        spots,
        function,
        |f, spot| at_name(f, &spot.c.bytes, spot.path[0]),
        |spot| rust(&spot.c.bytes, spot.path[0]),
        lean.map(|lean| move |spot: &Spot| lean(&spot.c.bytes, spot.path[0])),
        Some(|spot: &Spot| ready(&spot.c.tree, &spot.names[0])),
    )
}

/// The same with a path.
fn of_path<A: Answer, T>(
    spots: &[Spot],
    function: Both<AtPath>,
    rust: impl Fn(&[u8], &[u16]) -> A,
    lean: Option<LeanAtPath>,
    ready: impl Fn(&FeelContext, &[Name]) -> T,
) -> Measured {
    contest(
        spots,
        function,
        |f, spot| at_path(f, &spot.c.bytes, &spot.path),
        |spot| rust(&spot.c.bytes, &spot.path),
        lean.map(|lean| move |spot: &Spot| lean(&spot.c.bytes, &spot.path)),
        Some(|spot: &Spot| ready(&spot.c.tree, &spot.names)),
    )
}

/// The Rust's context in these bytes.
fn read(c: &[u8]) -> FeelContext {
    let (value, _) = read_value(c).expect("accepted");
    FeelContext::try_from(value).expect("a context")
}
