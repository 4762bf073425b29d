//! Section R of the rules: records and marks.

use crate::bytes::Reader;
use crate::rows::{self, Row};
use crate::schema::Schema;
use crate::value::{self, Uuid, Value, ATOMS_BYTES};

const BORN: u8 = 1;
const GONE: u8 = 2;
const COLUMN: u8 = 3;
const END: u8 = 4;
const MARK: u8 = 5;
/// The bytes of a record of a column.
pub const MOST_RECORD_BYTES: usize = 9 + 1 + 16 + 2 + ATOMS_BYTES;

/// What a record says, apart from its run and number.
pub enum Change<'a> {
    Born {
        table: usize,
        id: Uuid,
    },
    Gone {
        table: usize,
        id: Uuid,
    },
    Column {
        table: usize,
        id: Uuid,
        column: usize,
        value: Value<'a>,
    },
    End,
}

/// What arrives at a mirror.
pub enum Arrival<'a> {
    Record { run: u32, number: u32, change: Change<'a> },
    Mark { run: u32, number: u32 },
}

/// R8 to R11: the changes that make of the rows before those after; none where nothing changed.
pub fn changes<'a>(before: &[Row], after: &[Row<'a>]) -> Vec<Change<'a>> {
    let mut changes = Vec::new();
    for row in before {
        if rows::find(after, row.table, &row.id).is_none() {
            changes.push(Change::Gone {
                table: row.table,
                id: row.id,
            });
        }
    }
    for row in after {
        let old = rows::find(before, row.table, &row.id);
        if old.is_none() {
            changes.push(Change::Born {
                table: row.table,
                id: row.id,
            });
        }
        for (column, value) in row.values.iter().enumerate() {
            if old.is_none_or(|old| old.values[column] != *value) {
                changes.push(Change::Column {
                    table: row.table,
                    id: row.id,
                    column,
                    value: *value,
                });
            }
        }
    }
    if !changes.is_empty() {
        changes.push(Change::End);
    }
    changes
}

/// Adds the bytes of a record (R2 to R5).
pub fn encode_record(run: u32, number: u32, change: &Change, out: &mut Vec<u8>) {
    let kind = match change {
        Change::Born { .. } => BORN,
        Change::Gone { .. } => GONE,
        Change::Column { .. } => COLUMN,
        Change::End => END,
    };
    encode_head(kind, run, number, out);
    match change {
        Change::Born { table, id } | Change::Gone { table, id } => {
            out.push(*table as u8);
            out.extend(id);
        }
        Change::Column {
            table,
            id,
            column,
            value,
        } => {
            out.push(*table as u8);
            out.extend(id);
            out.extend([*column as u8, value.len() as u8]);
            value::encode_atoms(value, out);
        }
        Change::End => (),
    }
}

/// R6.
pub fn encode_mark(run: u32, number: u32) -> Vec<u8> {
    let mut out = Vec::new();
    encode_head(MARK, run, number, &mut out);
    out
}

fn encode_head(kind: u8, run: u32, number: u32, out: &mut Vec<u8>) {
    out.push(kind);
    out.extend(run.to_be_bytes());
    out.extend(number.to_be_bytes());
}

/// The record or mark of some bytes, or None where they are of bad form (M5 to M7).
pub fn decode<'a>(schema: &Schema, bytes: &'a [u8]) -> Option<Arrival<'a>> {
    let mut reader = Reader::new(bytes);
    let (kind, run, number) = (reader.byte()?, reader.u32()?, reader.u32()?);
    let arrival = if kind == MARK {
        Arrival::Mark { run, number }
    } else {
        let change = decode_change(kind, schema, &mut reader).filter(|_| number > 0)?;
        Arrival::Record { run, number, change }
    };
    reader.is_empty().then_some(arrival)
}

fn decode_change<'a>(kind: u8, schema: &Schema, reader: &mut Reader<'a>) -> Option<Change<'a>> {
    if kind == END {
        return Some(Change::End);
    }
    let table = usize::from(reader.byte()?);
    let columns = &schema.tables.get(table)?.columns;
    let id = reader.id()?;
    match kind {
        BORN => Some(Change::Born { table, id }),
        GONE => Some(Change::Gone { table, id }),
        COLUMN => {
            let column = usize::from(reader.byte()?);
            let column_type = &columns.get(column)?.column_type;
            let value = value::decode_value(column_type, reader.byte()?, reader.take(ATOMS_BYTES)?)?;
            Some(Change::Column {
                table,
                id,
                column,
                value,
            })
        }
        _ => None,
    }
}
