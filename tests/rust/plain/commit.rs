//! Section C of the rules: the commit.

use crate::error::Error;
use crate::rows::{self, Row};
use crate::schema::{Reference, Schema, Strength, Table};
use crate::value::{Atom, Uuid, Value};

/// C1: the steps, on the working rows.
pub fn commit(schema: &Schema, rows: &mut Vec<Row>) -> Result<(), Error> {
    if !all_found(schema, rows, Strength::Strong) {
        return Err(Error::ReferentialIntegrity);
    }
    collect(schema, rows);
    weaken(schema, rows);
    if !limits_hold(schema, rows) {
        return Err(Error::Constraint);
    }
    Ok(())
}

/// A14: whether rows are as a commit leaves them.
pub fn is_lawful(schema: &Schema, rows: &[Row]) -> bool {
    let held = held_rows(schema, rows);
    all_found(schema, rows, Strength::Strong)
        && all_found(schema, rows, Strength::Weak)
        && rows.iter().all(|row| !is_loose(schema, &held, row))
        && limits_hold(schema, rows)
}

/// The columns of a row that are references of some strength, with their values.
fn references<'a>(schema: &'a Schema, row: &'a Row, strength: Strength) -> impl Iterator<Item = (Reference, &'a Value<'a>)> {
    let columns = &schema.tables[row.table].columns;
    columns.iter().zip(&row.values).filter_map(move |(column, value)| {
        let reference = column.column_type.reference?;
        (reference.strength == strength).then_some((reference, value))
    })
}

/// The elements of a reference.
fn uuids<'a>(value: &'a [Atom]) -> impl Iterator<Item = Uuid> + 'a {
    value.iter().filter_map(|element| match element {
        Atom::Uuid(id) => Some(*id),
        _ => None,
    })
}

/// Whether each element of each reference of some strength is a row of its table (C2).
fn all_found(schema: &Schema, rows: &[Row], strength: Strength) -> bool {
    rows.iter()
        .flat_map(|row| references(schema, row, strength))
        .all(|(reference, value)| uuids(value).all(|id| rows::find(rows, reference.table, &id).is_some()))
}

/// The rows to which a different row has a strong reference.
fn held_rows(schema: &Schema, rows: &[Row]) -> Vec<(usize, Uuid)> {
    let mut held = Vec::with_capacity(rows.len());
    for row in rows {
        for (reference, value) in references(schema, row, Strength::Strong) {
            let others = uuids(value).filter(|id| *id != row.id);
            held.extend(others.map(|id| (reference.table, id)));
        }
    }
    held
}

/// C4: whether a row goes.
fn is_loose(schema: &Schema, held: &[(usize, Uuid)], row: &Row) -> bool {
    !schema.is_root(row.table) && !held.contains(&(row.table, row.id))
}

/// Step 2: loose rows go, until there is none.
fn collect(schema: &Schema, rows: &mut Vec<Row>) {
    loop {
        let count = rows.len();
        let held = held_rows(schema, rows);
        rows.retain(|row| !is_loose(schema, &held, row));
        if rows.len() == count {
            return;
        }
    }
}

/// Step 3: elements of weak references go that are no row (C6).
fn weaken(schema: &Schema, rows: &mut [Row]) {
    let present: Vec<(usize, Uuid)> = rows.iter().map(|row| (row.table, row.id)).collect();
    for row in rows {
        for (column, value) in schema.tables[row.table].columns.iter().zip(&mut row.values) {
            if let Some(Reference {
                table,
                strength: Strength::Weak,
            }) = column.column_type.reference
            {
                *value = value.filtered(|element| matches!(element, Atom::Uuid(id) if present.contains(&(table, *id))));
            }
        }
    }
}

/// Step 4 (C7).
fn limits_hold(schema: &Schema, rows: &[Row]) -> bool {
    let enough = rows.iter().all(|row| {
        let columns = &schema.tables[row.table].columns;
        columns
            .iter()
            .zip(&row.values)
            .all(|(column, value)| value.len() >= column.column_type.min)
    });
    enough
        && schema
            .tables
            .iter()
            .enumerate()
            .all(|(number, table)| table_good(number, table, rows))
}

fn table_good(number: usize, table: &Table, rows: &[Row]) -> bool {
    let start = rows.partition_point(|row| row.table < number);
    let end = rows.partition_point(|row| row.table <= number);
    let own = &rows[start..end];
    table.max_rows.is_none_or(|most| own.len() as i64 <= most) && table.indexes.iter().all(|index| is_unique(index, own))
}

/// Whether no two rows are equal in all columns of an index.
fn is_unique(index: &[usize], rows: &[Row]) -> bool {
    let equal = |one: &Row, other: &Row| index.iter().all(|column| one.values[*column] == other.values[*column]);
    rows.iter()
        .enumerate()
        .all(|(at, row)| !rows[..at].iter().any(|other| equal(row, other)))
}
