//! The printed table, and what stands below it.

use crate::measure::Measured;
use crate::stock::Stock;
use std::cmp::Ordering;

/// The growth that is linear, with room for what the machine does.
const LINEAR: f64 = 1.5;

/// The places in a record, and the kinds of records, that a row may be of.
pub const PLACES: [&str; 24] = [
    "first",
    "last",
    "front",
    "deep",
    "cut",
    "unordered",
    "first-cut",
    "second-cut",
    "no",
    "leaf",
    "null",
    "definitions",
    "type-values",
    "decimals",
    "parameterless",
    "deep-30",
    "last-30",
    "new-10",
    "over-31",
    "deep-value",
    "fixed",
    "dates",
    "chain",
    "diamond",
];

/// Whether an earlier library is linked, so that there is a column for it.
pub const HAS_BEFORE: bool = cfg!(feel_before);

/// What is listed as slower than before, with room for what the machine does.
const SLOWER: f64 = 0.9;

/// One line of the table.
struct Row {
    call: &'static str,
    /// One of [PLACES], or none.
    place: &'static str,
    size: &'static str,
    measured: Measured,
    growth: Option<f64>,
}

impl Row {
    /// Our nanoseconds a byte.
    fn a_byte(&self) -> f64 {
        self.measured.ours / self.measured.bytes
    }

    /// The time of the Rust from the bytes, divided by ours.
    fn ratio(&self) -> f64 {
        self.measured.rust / self.measured.ours
    }

    fn label(&self) -> String {
        match self.place {
            "" => self.call.to_string(),
            place => format!("{}, {place}", self.call),
        }
    }

    /// The time of lean Rust, divided by ours.
    fn lean(&self) -> Option<f64> {
        self.measured.lean.map(|lean| lean / self.measured.ours)
    }

    /// The time of the earlier library, divided by ours.
    fn before(&self) -> Option<f64> {
        self.measured
            .before
            .map(|before| before / self.measured.ours)
    }

    fn print(&self) {
        let Measured {
            bytes, ours, ready, ..
        } = self.measured;
        let known = |number: Option<f64>| number.map_or(String::new(), figures);
        print_columns([
            &self.label(),
            self.size,
            &format!("{bytes:.0}"),
            &figures(ours),
            &figures(self.a_byte()),
            &figures(self.ratio()),
            &known(ready.map(|ready| ready / ours)),
            &known(self.lean()),
            &known(self.before()),
            &known(self.growth),
        ]);
    }
}

/// Prints one line. The column of the earlier library is there only when there is one.
fn print_columns(columns: [&str; 10]) {
    let [
        label,
        size,
        bytes,
        a_call,
        a_byte,
        rust,
        ready,
        lean,
        before,
        growth,
    ] = columns;
    let before = match HAS_BEFORE {
        true => format!("{before:>8}"),
        false => String::new(),
    };
    let line = format!(
        "{label:<42} {size:<8} {bytes:>6} {a_call:>10} {a_byte:>10} {rust:>11} {ready:>8} {lean:>8} \
         {before}{growth:>8}"
    );
    println!("{}", line.trim_end());
}

/// The rows so far.
pub struct Table {
    /// Calls, places, or a call with a place, `CALL:PLACE`; all rows when there is none.
    only: Vec<String>,
    rows: Vec<Row>,
}

impl Table {
    pub fn new(only: Vec<String>) -> Table {
        Table { only, rows: vec![] }
    }

    /// Prints a title and the heads of the columns.
    pub fn section(&mut self, title: &str) {
        println!();
        print_columns([
            title,
            "size",
            "bytes",
            "ns a call",
            "ns a byte",
            "from bytes",
            "ready",
            "lean",
            "before",
            "growth",
        ]);
    }

    /// A call for each size.
    pub fn each(
        &mut self,
        call: &'static str,
        stocks: &[Stock],
        measure: impl FnMut(&Stock) -> Measured,
    ) {
        self.each_at(call, "", stocks, measure);
    }

    /// A call at this place in the record, for each size.
    pub fn each_at(
        &mut self,
        call: &'static str,
        place: &'static str,
        stocks: &[Stock],
        mut measure: impl FnMut(&Stock) -> Measured,
    ) {
        let mut smaller: Option<f64> = None;
        for stock in stocks {
            let measure = || measure(stock);
            smaller = self.add(call, place, stock.size.name, smaller, measure);
        }
    }

    /// A call with one row; `size` says on which records, if there are several kinds.
    pub fn one(
        &mut self,
        call: &'static str,
        size: &'static str,
        measure: impl FnOnce() -> Measured,
    ) {
        self.add(call, "", size, None, measure);
    }

    /// A call with one row, on these records.
    pub fn one_at(
        &mut self,
        call: &'static str,
        place: &'static str,
        measure: impl FnOnce() -> Measured,
    ) {
        self.add(call, place, "", None, measure);
    }

    /// Measures and prints a row, where it is wanted, and gives its nanoseconds a byte.
    fn add(
        &mut self,
        call: &'static str,
        place: &'static str,
        size: &'static str,
        smaller: Option<f64>,
        measure: impl FnOnce() -> Measured,
    ) -> Option<f64> {
        assert!(place.is_empty() || PLACES.contains(&place), "{place}");
        if !self.wants(call, place) {
            return None;
        }
        let mut row = Row {
            call,
            place,
            size,
            measured: measure(),
            growth: None,
        };
        row.growth = smaller.map(|smaller| row.a_byte() / smaller);
        row.print();
        let a_byte = row.a_byte();
        self.rows.push(row);
        Some(a_byte)
    }

    fn wants(&self, call: &str, place: &str) -> bool {
        let names = |name: &String| match name.split_once(':') {
            Some(both) => both == (call, place),
            None => name == call || name == place,
        };
        self.only.is_empty() || self.only.iter().any(names)
    }

    /// Panics where a wanted call has no row.
    pub fn missing(&self, calls: impl Iterator<Item = &'static str>) {
        for call in calls.filter(|call| self.wants(call, "")) {
            let is_there = self.rows.iter().any(|row| row.call == call);
            assert!(is_there, "{call} is not measured");
        }
    }

    /// Prints the rows that are slow, those that grow, and the ends of the ratios.
    pub fn end(&self) {
        let slow = |row: &Row| Some(row.ratio()).filter(|ratio| *ratio < 1.0);
        self.list("under 1 times the Rust from bytes", slow);
        let slow = |row: &Row| row.lean().filter(|ratio| *ratio < 1.0);
        self.list("under 1 times the lean Rust", slow);
        if HAS_BEFORE {
            let slower = |row: &Row| row.before().filter(|ratio| *ratio < SLOWER);
            self.list("under 0.9 times the earlier library", slower);
        }
        let tabled = |row: &Row| self.beside_ported(row);
        self.list("over a table, in times of the ported call", tabled);
        let grown = |row: &Row| row.growth.filter(|growth| *growth > LINEAR);
        self.list("growth over 1.5", grown);
        let by_ratio = |a: &&Row, b: &&Row| -> Ordering { a.ratio().total_cmp(&b.ratio()) };
        println!();
        for (which, row) in [
            ("smallest", self.rows.iter().min_by(by_ratio)),
            ("largest", self.rows.iter().max_by(by_ratio)),
        ] {
            if let Some(row) = row {
                println!(
                    "{which} ratio from bytes: {} ({})",
                    figures(row.ratio()),
                    sized(row)
                );
            }
        }
    }

    /// The time of a call over a table, divided by that of the ported call on records of the same size.
    fn beside_ported(&self, row: &Row) -> Option<f64> {
        let ported = row.call.strip_prefix("table_")?;
        let is_ported =
            |other: &&Row| other.call == ported && other.place.is_empty() && other.size == row.size;
        let ported = self.rows.iter().find(is_ported)?;
        Some(row.measured.ours / ported.measured.ours)
    }

    fn list(&self, title: &str, figure: impl Fn(&Row) -> Option<f64>) {
        println!();
        println!("{title}:");
        let mut none = true;
        for row in &self.rows {
            if let Some(number) = figure(row) {
                println!("  {:<44} {:>6}", sized(row), figures(number));
                none = false;
            }
        }
        if none {
            println!("  none");
        }
    }
}

/// A row's label with its size.
fn sized(row: &Row) -> String {
    match row.size {
        "" => row.label(),
        size => format!("{}, {size}", row.label()),
    }
}

/// A number with about three figures.
fn figures(number: f64) -> String {
    match number {
        0.0..0.001 => "<0.001".to_string(),
        0.0..1.0 => format!("{number:.3}"),
        0.0..10.0 => format!("{number:.2}"),
        0.0..100.0 => format!("{number:.1}"),
        _ => format!("{number:.0}"),
    }
}
