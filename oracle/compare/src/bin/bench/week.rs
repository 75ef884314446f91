//! The calls on the records of the sample week: the accepted requests, and the types of the
//! missions.

use crate::contexts::search;
use crate::data::are_decimals_known;
use crate::stock::{Spot, feel_type, pairs, records, spots, value};
use crate::table::Table;
use crate::types::{Types, conformance, reading, supertypes};
use crate::updates::{creation, setting};
use crate::values::{self, TypeAndValue, ValueAndType};
use dsntk_feel::context::FeelContext;
use dsntk_feel::values::Value;
use dsntk_feel_number::FeelNumber;
use feel_form::{calls, read_value, write_value};
use std::fs;

const FOLDER: &str = concat!(env!("CARGO_MANIFEST_DIR"), "/../../examples/week");

/// The numbers of names in the table of the week.
const OPERATOR: u16 = 16;
const SPACECRAFT: u16 = 25;
const SPACECRAFT_ID: u16 = 26;
const WINDOW: u16 = 31;

/// The text of an operator.
const AN_OPERATOR: [u8; 3] = [0x03, 62, 0];

/// A range of two points in time.
const A_WINDOW: [u8; 21] = [
    0x09, 1, 2, 0x06, 0, 1, 0xF5, 0x6A, 0, 0, 0, 0, 0x06, 0, 2, 0xF5, 0x6A, 0, 0, 0, 0,
];

pub fn run(table: &mut Table) {
    let mut requests = lines("requests.txt");
    requests.retain(|request| read_value(request).is_ok());
    if !are_decimals_known() {
        println!("decimals as whole numbers: the earlier library does not read them");
        let whole = |request: &Vec<u8>| write_value(&in_whole(value(request.clone()).tree));
        requests = requests.iter().map(whole).collect();
    }
    let missions = lines("missions.txt");
    let values = records(requests.iter().cloned(), value);
    table.one("check_value", "week", || reading(&values));
    table.one("value_is_conformant", "week", || {
        values::conformance(&judged(&requests, &missions))
    });
    table.one("value_least_type", "week", || values::least_types(&values));
    table.one("value_type_of", "week", || values::types_of(&values));
    table.one("type_get_value_checked", "week", || {
        values::checked_retrieval(&retrieved(&requests, &missions))
    });
    table.one("value_coerced", "week", || {
        values::coercion(&judged(&requests, &missions))
    });
    table.one("type_is_conformant", "week", || {
        conformance(&types(&missions))
    });
    table.one("type_common_supertype", "week", || {
        supertypes(&types(&missions))
    });
    let at = |path: &[u16]| spots(requests.iter().map(|c| (c.clone(), path.to_vec())));
    table.one("context_search_deep", "week", || {
        search(&at(&[SPACECRAFT, SPACECRAFT_ID]))
    });
    table.one("context_create_entries", "week", || {
        let spots = at(&[SPACECRAFT, OPERATOR]).into_iter();
        let spots: Vec<Spot> = spots.map(|spot| spot.putting(&AN_OPERATOR)).collect();
        creation(&spots)
    });
    table.one("context_set_entry", "week", || {
        let spots = at(&[WINDOW]).into_iter();
        let spots: Vec<Spot> = spots.map(|spot| spot.putting(&A_WINDOW)).collect();
        setting(&spots)
    });
}

/// The value with the coefficient of each decimal as a whole number.
fn in_whole(v: Value) -> Value {
    match v {
        Value::Number(number) => Value::Number(FeelNumber::whole(number.coefficient())),
        Value::Range(start, start_type, end, end_type) => Value::Range(
            Box::new(in_whole(*start)),
            start_type,
            Box::new(in_whole(*end)),
            end_type,
        ),
        Value::List(items) => Value::List(items.into_iter().map(in_whole).collect()),
        Value::Context(entries) => {
            let mut context = FeelContext::new();
            for (name, entry) in entries.iter() {
                context.set_entry(name, in_whole(entry.clone()));
            }
            Value::Context(context)
        }
        other => other,
    }
}

/// The records of a file: in each line the last word, in hexadecimal.
fn lines(file: &str) -> Vec<Vec<u8>> {
    let path = format!("{FOLDER}/{file}");
    let text = fs::read_to_string(&path).unwrap_or_else(|error| panic!("{path}: {error}"));
    let words = text.lines().filter_map(|line| line.split(' ').next_back());
    words.map(bytes).collect()
}

fn bytes(digits: &str) -> Vec<u8> {
    let byte = |place| u8::from_str_radix(&digits[place..place + 2], 16).expect("hexadecimal");
    (0..digits.len()).step_by(2).map(byte).collect()
}

/// Each request with a mission, the missions in turn.
fn judged(requests: &[Vec<u8>], missions: &[Vec<u8>]) -> Vec<ValueAndType> {
    let bytes = requests.iter().zip(missions.iter().cycle());
    pairs(bytes.map(|(v, t)| [v.clone(), t.clone()]), value, feel_type)
}

/// Each request with the first mission that retrieves it, from another one on in turn; those that
/// none retrieves are left out.
fn retrieved(requests: &[Vec<u8>], missions: &[Vec<u8>]) -> Vec<TypeAndValue> {
    let pair = |(place, v): (usize, &Vec<u8>)| {
        let mut turn = missions.iter().cycle().skip(place).take(missions.len());
        let retrieves = |t: &&Vec<u8>| calls::get_value_checked(t, v, v.len()).is_ok();
        turn.find(retrieves).map(|t| [t.clone(), v.clone()])
    };
    let bytes = requests.iter().enumerate().filter_map(pair);
    pairs(bytes, feel_type, value)
}

/// Each mission with each.
fn types(missions: &[Vec<u8>]) -> Vec<Types> {
    let each = |a| missions.iter().map(move |b| [Vec::clone(a), b.clone()]);
    pairs(missions.iter().flat_map(each), feel_type, feel_type)
}
