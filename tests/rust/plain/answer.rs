//! Section N of the rules: the text of answers.

use std::fmt::Write;

use crate::error::Error;
use crate::rows::Row;
use crate::schema::Table;
use crate::value::{Atom, Uuid};

/// Room for the text of a row, which may be longer.
const USUAL_ROW_BYTES: usize = 512;

pub fn error_text(error: Error) -> String {
    format!("{{\"error\":\"{}\"}}", error.words())
}

pub fn insert_text(id: &Uuid) -> String {
    let mut out = String::from("{\"uuid\":");
    add_uuid(id, &mut out);
    out.push('}');
    out
}

pub fn count_text(count: usize) -> String {
    format!("{{\"count\":{count}}}")
}

pub fn rows_text(objects: &[String]) -> String {
    format!("{{\"rows\":[{}]}}", objects.join(","))
}

/// O27: the object of a row with the columns that are shown, all of them where none are told.
pub fn row_text(table: &Table, row: &Row, shown: Option<&[&str]>) -> String {
    let shows = |name: &str| shown.is_none_or(|names| names.contains(&name));
    let mut out = String::with_capacity(USUAL_ROW_BYTES);
    out.push('{');
    if shows("_uuid") {
        add_name("_uuid", &mut out);
        add_uuid(&row.id, &mut out);
    }
    for (column, value) in table.columns.iter().zip(&row.values) {
        if shows(column.name) {
            add_name(column.name, &mut out);
            add_value(value, &mut out);
        }
    }
    out.push('}');
    out
}

/// The name of a member, after a comma where it is not the first.
fn add_name(name: &str, out: &mut String) {
    if !out.ends_with('{') {
        out.push(',');
    }
    out.push('"');
    out.push_str(name);
    out.push_str("\":");
}

/// N7.
fn add_value(value: &[Atom], out: &mut String) {
    if let [element] = value {
        return add_element(element, out);
    }
    out.push_str("[\"set\",[");
    for (place, element) in value.iter().enumerate() {
        if place > 0 {
            out.push(',');
        }
        add_element(element, out);
    }
    out.push_str("]]");
}

fn add_element(element: &Atom, out: &mut String) {
    match element {
        Atom::Integer(number) => {
            let _ = write!(out, "{number}");
        }
        Atom::Boolean(truth) => out.push_str(if *truth { "true" } else { "false" }),
        Atom::String(text) => add_quoted(text, out),
        Atom::Uuid(uuid) => add_uuid(uuid, out),
    }
}

/// N5.
fn add_quoted(text: &str, out: &mut String) {
    out.push('"');
    for character in text.chars() {
        match character {
            '"' => out.push_str("\\\""),
            '\\' => out.push_str("\\\\"),
            '\0'..='\x1f' => {
                let _ = write!(out, "\\u{:04x}", u32::from(character));
            }
            _ => out.push(character),
        }
    }
    out.push('"');
}

/// N6.
fn add_uuid(uuid: &Uuid, out: &mut String) {
    out.push_str("[\"uuid\",\"");
    for (place, byte) in uuid.iter().enumerate() {
        if matches!(place, 4 | 6 | 8 | 10) {
            out.push('-');
        }
        for digit in [byte >> 4, byte & 15] {
            out.extend(char::from_digit(u32::from(digit), 16));
        }
    }
    out.push_str("\"]");
}
