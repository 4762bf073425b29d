//! Section W of the rules: values as written in a request.

use std::collections::HashMap;

use crate::error::{Error, Faults};
use crate::json::Json;
use crate::schema::{Base, ColumnType};
use crate::value::{self, Atom, Uuid, MOST_ELEMENTS, MOST_TEXT_BYTES};

/// The uuid-names of a request, each with the fresh id of the first insert that has it (W6).
pub type Names<'a> = HashMap<&'a str, Uuid>;

/// The elements of a value in their order, equal ones too; a mistyped value is a syntax error (W10).
pub fn read_elements<'a>(column_type: &ColumnType, json: &'a Json, names: &Names) -> Result<Vec<Atom<'a>>, Error> {
    let items = as_set(json).unwrap_or(std::slice::from_ref(json));
    let mut elements = Vec::with_capacity(items.len());
    for item in items {
        elements.push(read_element(column_type.base, item, names).ok_or(Error::Syntax)?);
    }
    elements.sort();
    Ok(elements)
}

/// W1: the items of `["set",[...]]`.
fn as_set<'a>(json: &'a Json<'a>) -> Option<&'a [Json<'a>]> {
    match json.as_array()? {
        [Json::String(word), Json::Array(items)] if word == "set" => Some(items),
        _ => None,
    }
}

/// W3 and W4.
fn read_element<'a>(base: Base, json: &'a Json, names: &Names) -> Option<Atom<'a>> {
    match base {
        Base::Integer => json.as_integer().map(Atom::Integer),
        Base::Boolean => json.as_bool().map(Atom::Boolean),
        Base::String => json.as_str().map(Atom::String),
        Base::Uuid => read_uuid(json, names).map(Atom::Uuid),
    }
}

fn read_uuid(json: &Json, names: &Names) -> Option<Uuid> {
    let [Json::String(word), Json::String(text)] = json.as_array()? else {
        return None;
    };
    match word.as_ref() {
        "uuid" => parse_uuid(text),
        "named-uuid" => names.get(text.as_ref()).copied(),
        _ => None,
    }
}

/// W5.
fn parse_uuid(text: &str) -> Option<Uuid> {
    let groups = text.split('-');
    if !groups.clone().map(str::len).eq([8, 4, 4, 4, 12]) {
        return None;
    }
    let mut digits = groups.flat_map(str::chars).map_while(|digit| digit.to_digit(16));
    let mut uuid = [0; 16];
    for byte in &mut uuid {
        *byte = (digits.next()? * 16 + digits.next()?) as u8;
    }
    Some(uuid)
}

pub fn all_distinct(elements: &[Atom]) -> bool {
    elements.windows(2).all(|pair| pair[0] != pair[1])
}

fn all_in_limits(column_type: &ColumnType, elements: &[Atom]) -> bool {
    elements.iter().all(|element| value::in_limits(column_type, element))
}

/// W12 to W15: a value that is to be kept, with at least some count of elements.
pub fn judge_kept(column_type: &ColumnType, elements: &[Atom], least: usize, faults: &mut Faults) {
    let fits = |element: &Atom| !matches!(element, Atom::String(text) if text.len() > MOST_TEXT_BYTES);
    let count_good = (least..=column_type.max).contains(&elements.len());
    faults.unless(elements.len() <= MOST_ELEMENTS && elements.iter().all(fits), Error::Resources);
    faults.unless(
        count_good && all_distinct(elements) && all_in_limits(column_type, elements),
        Error::Constraint,
    );
}

/// W16: the value of a mutation's delete.
pub fn judge_deleted(column_type: &ColumnType, elements: &[Atom], faults: &mut Faults) {
    faults.unless(
        all_distinct(elements) && all_in_limits(column_type, elements),
        Error::Constraint,
    );
}
