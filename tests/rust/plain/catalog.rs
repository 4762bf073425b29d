//! The catalog of docs/LAYOUT.md: a schema in 29 entries of 48 bytes.

use crate::bytes::Reader;
use crate::schema::{is_id, Base, Column, ColumnType, Reference, Schema, Strength, Table};
use crate::schema::{MOST_COLUMNS, MOST_INDEXES, MOST_INDEX_COLUMNS, MOST_TABLES};
use crate::value::{MOST_ELEMENTS, MOST_TEXT_BYTES};

const ENTRY_BYTES: usize = 48;
const TABLE_COLUMNS_BYTES: usize = MOST_COLUMNS * ENTRY_BYTES;
pub const CATALOG_BYTES: usize = (1 + MOST_TABLES) * ENTRY_BYTES + MOST_TABLES * TABLE_COLUMNS_BYTES;
const BASES: [Base; 4] = [Base::Integer, Base::Boolean, Base::String, Base::Uuid];

pub fn encode(schema: &Schema, out: &mut Vec<u8>) {
    let start = out.len();
    encode_name(schema.name, out);
    out.push(schema.tables.len() as u8);
    out.resize(start + ENTRY_BYTES, 0);
    for table in &schema.tables {
        encode_table(table, out);
    }
    out.resize(start + (1 + MOST_TABLES) * ENTRY_BYTES, 0);
    for table in &schema.tables {
        let end = out.len() + TABLE_COLUMNS_BYTES;
        for column in &table.columns {
            encode_column(column, out);
        }
        out.resize(end, 0);
    }
    out.resize(start + CATALOG_BYTES, 0);
}

fn encode_name(name: &str, out: &mut Vec<u8>) {
    let end = out.len() + 1 + MOST_TEXT_BYTES;
    out.push(name.len() as u8);
    out.extend(name.as_bytes());
    out.resize(end, 0);
}

fn encode_table(table: &Table, out: &mut Vec<u8>) {
    let start = out.len();
    encode_name(table.name, out);
    out.extend([
        table.columns.len() as u8,
        u8::from(table.is_root),
        u8::from(table.max_rows.is_some()),
    ]);
    out.extend(table.max_rows.unwrap_or(0).to_be_bytes());
    out.push(table.indexes.len() as u8);
    for index in &table.indexes {
        let end = out.len() + 1 + MOST_INDEX_COLUMNS;
        out.push(index.len() as u8);
        out.extend(index.iter().map(|column| *column as u8));
        out.resize(end, 0);
    }
    out.resize(start + ENTRY_BYTES, 0);
}

fn encode_column(column: &Column, out: &mut Vec<u8>) {
    let start = out.len();
    let column_type = &column.column_type;
    let (strength, table) = match column_type.reference {
        None => (0, 0),
        Some(Reference {
            table,
            strength: Strength::Strong,
        }) => (1, table as u8),
        Some(Reference {
            table,
            strength: Strength::Weak,
        }) => (2, table as u8),
    };
    encode_name(column.name, out);
    out.extend([column_type.base as u8, strength, table]);
    out.extend([column_type.min as u8, column_type.max as u8, u8::from(column.mutable)]);
    out.extend(column_type.low.to_be_bytes());
    out.extend(column_type.high.to_be_bytes());
    out.resize(start + ENTRY_BYTES, 0);
}

/// The schema of a catalog, or None where it breaks A10.
pub fn decode<'a>(reader: &mut Reader<'a>) -> Option<Schema<'a>> {
    let name = decode_name(reader)?;
    let count = reader.at_most(MOST_TABLES)?;
    reader.zeros(22)?;
    let mut entries = reader.part(MOST_TABLES * ENTRY_BYTES)?;
    let mut columns = reader.part(MOST_TABLES * TABLE_COLUMNS_BYTES)?;
    let mut tables: Vec<Table> = Vec::with_capacity(count);
    for _ in 0..count {
        let table = decode_table(count, &mut entries, &mut columns)?;
        if tables.iter().any(|other| other.name == table.name) {
            return None;
        }
        tables.push(table);
    }
    (entries.is_zero() && columns.is_zero()).then_some(Schema { name, tables })
}

fn decode_name<'a>(reader: &mut Reader<'a>) -> Option<&'a str> {
    let length = reader.at_most(MOST_TEXT_BYTES)?;
    let name = std::str::from_utf8(reader.take(length)?).ok()?;
    reader.zeros(MOST_TEXT_BYTES - length)?;
    is_id(name).then_some(name)
}

/// A table, of the number of all tables, its entry and its columns' entries.
fn decode_table<'a>(tables: usize, reader: &mut Reader<'a>, columns: &mut Reader<'a>) -> Option<Table<'a>> {
    let name = decode_name(reader)?;
    let count = reader.at_most(MOST_COLUMNS)?;
    let is_root = reader.flag()?;
    let max_rows = if reader.flag()? {
        Some(reader.i64().filter(|most| *most >= 1)?)
    } else {
        reader.zeros(8)?;
        None
    };
    let indexes = decode_indexes(count, reader)?;
    reader.zeros(3)?;
    Some(Table {
        name,
        columns: decode_columns(count, tables, columns)?,
        is_root,
        max_rows,
        indexes,
    })
}

fn decode_indexes(columns: usize, reader: &mut Reader) -> Option<Vec<Vec<usize>>> {
    let count = reader.at_most(MOST_INDEXES)?;
    let mut indexes = Vec::with_capacity(count);
    for _ in 0..count {
        indexes.push(decode_index(columns, reader)?);
    }
    reader.zeros((MOST_INDEXES - count) * (1 + MOST_INDEX_COLUMNS))?;
    Some(indexes)
}

fn decode_index(columns: usize, reader: &mut Reader) -> Option<Vec<usize>> {
    let count = reader.at_most(MOST_INDEX_COLUMNS).filter(|count| *count > 0)?;
    let last = columns.checked_sub(1)?;
    let mut index = Vec::with_capacity(count);
    for _ in 0..count {
        index.push(reader.at_most(last)?);
    }
    reader.zeros(MOST_INDEX_COLUMNS - count)?;
    Some(index)
}

fn decode_columns<'a>(count: usize, tables: usize, reader: &mut Reader<'a>) -> Option<Vec<Column<'a>>> {
    let mut columns: Vec<Column> = Vec::with_capacity(count);
    for _ in 0..count {
        let column = decode_column(tables, reader)?;
        if columns.iter().any(|other| other.name == column.name) {
            return None;
        }
        columns.push(column);
    }
    reader.zeros((MOST_COLUMNS - count) * ENTRY_BYTES)?;
    Some(columns)
}

fn decode_column<'a>(tables: usize, reader: &mut Reader<'a>) -> Option<Column<'a>> {
    let name = decode_name(reader)?;
    let base = *BASES.get(usize::from(reader.byte()?))?;
    let reference = decode_reference(base, tables, reader)?;
    let min = reader.at_most(1)?;
    let max = reader.at_most(MOST_ELEMENTS).filter(|max| *max >= 1)?;
    let mutable = reader.flag()?;
    let (low, high) = (reader.i64()?, reader.i64()?);
    reader.zeros(1)?;
    let has_limits = matches!(base, Base::Integer | Base::String);
    let limits_good = if has_limits {
        low <= high
    } else {
        (low, high) == (i64::MIN, i64::MAX)
    };
    limits_good.then_some(Column {
        name,
        column_type: ColumnType {
            base,
            reference,
            min,
            max,
            low,
            high,
        },
        mutable,
    })
}

/// The outer Option is None where the bytes are those of no reference that a schema can have.
fn decode_reference(base: Base, tables: usize, reader: &mut Reader) -> Option<Option<Reference>> {
    let strength = match reader.byte()? {
        0 => return reader.zeros(1).map(|()| None),
        1 => Strength::Strong,
        2 => Strength::Weak,
        _ => return None,
    };
    let table = reader.at_most(tables.checked_sub(1)?)?;
    (base == Base::Uuid).then_some(Some(Reference { table, strength }))
}
