//! Section A of the rules and docs/LAYOUT.md: the bytes of a store's and a mirror's area.

use crate::bytes::Reader;
use crate::catalog;
use crate::commit;
use crate::rows::{self, Row};
use crate::schema::{Schema, MOST_COLUMNS};
use crate::value::{self, ATOMS_BYTES};

pub const MOST_ROWS: usize = 32;
const ROW_BYTES: usize = 25 + MOST_COLUMNS * ATOMS_BYTES;
pub const STORE_BYTES: usize = 4 + 4 + catalog::CATALOG_BYTES + 1 + MOST_ROWS * ROW_BYTES;
pub const MIRROR_BYTES: usize = STORE_BYTES + 4 + 1 + 1;

/// What a store's area holds; a mirror's holds the same, with n as its number.
pub struct Store<'a> {
    pub run: u32,
    pub number: u32,
    pub schema: Schema<'a>,
    pub rows: Vec<Row<'a>>,
}

/// M1.
pub struct Mirror<'a> {
    pub store: Store<'a>,
    pub highest: u32,
    pub heard: bool,
    /// Whether n is 0 or record n is an end.
    pub at_end: bool,
}

/// The store of an area, or None where it is not in good order (A9 to A14).
pub fn decode_store(area: &[u8]) -> Option<Store<'_>> {
    let store = decode_common(&mut Reader::new(area))?;
    (values_meet(&store) && commit::is_lawful(&store.schema, &store.rows)).then_some(store)
}

/// The mirror of an area, or None where it is not in good order (A9 to A12, A15 to A17).
pub fn decode_mirror(area: &[u8]) -> Option<Mirror<'_>> {
    let mut reader = Reader::new(area);
    let store = decode_common(&mut reader)?;
    let mirror = Mirror {
        store,
        highest: reader.u32()?,
        heard: reader.flag()?,
        at_end: reader.flag()?,
    };
    let n = mirror.store.number;
    let heard_good = n <= mirror.highest && (mirror.heard || mirror.highest == 0);
    (heard_good && (n > 0 || mirror.at_end)).then_some(mirror)
}

pub fn encode_store(run: u32, number: u32, schema: &Schema, rows: &[Row]) -> Vec<u8> {
    let mut out = Vec::with_capacity(MIRROR_BYTES);
    out.extend(run.to_be_bytes());
    out.extend(number.to_be_bytes());
    catalog::encode(schema, &mut out);
    out.push(rows.len() as u8);
    for row in rows {
        encode_row(row, &mut out);
    }
    out.resize(STORE_BYTES, 0);
    out
}

pub fn encode_mirror(mirror: &Mirror) -> Vec<u8> {
    let store = &mirror.store;
    let mut out = encode_store(store.run, store.number, &store.schema, &store.rows);
    out.extend(encode_hearing(mirror));
    out
}

/// The end of a mirror's area: what it has heard.
pub fn encode_hearing(mirror: &Mirror) -> Vec<u8> {
    let mut out = mirror.highest.to_be_bytes().to_vec();
    out.extend([u8::from(mirror.heard), u8::from(mirror.at_end)]);
    out
}

fn decode_common<'a>(reader: &mut Reader<'a>) -> Option<Store<'a>> {
    let run = reader.u32()?;
    let number = reader.u32()?;
    let schema = catalog::decode(reader)?;
    let count = reader.at_most(MOST_ROWS)?;
    let mut rows = Vec::with_capacity(MOST_ROWS);
    for _ in 0..count {
        rows.push(decode_row(&schema, reader)?);
    }
    reader.zeros((MOST_ROWS - count) * ROW_BYTES)?;
    (rows::ascend(&rows) && rows::all_different(rows.iter().map(|row| &row.id))).then_some(Store {
        run,
        number,
        schema,
        rows,
    })
}

/// A3 to A5.
fn encode_row(row: &Row, out: &mut Vec<u8>) {
    let start = out.len();
    out.push(row.table as u8);
    out.extend(row.id);
    out.extend(row.values.iter().map(|value| value.len() as u8));
    out.resize(start + 25, 0);
    for value in &row.values {
        value::encode_atoms(value, out);
    }
    out.resize(start + ROW_BYTES, 0);
}

fn decode_row<'a>(schema: &Schema, reader: &mut Reader<'a>) -> Option<Row<'a>> {
    let table = reader.at_most(schema.tables.len().checked_sub(1)?)?;
    let id = reader.id()?;
    let columns = &schema.tables[table].columns;
    let counts = reader.take(columns.len())?;
    reader.zeros(MOST_COLUMNS - columns.len() + 2)?;
    let mut values = Vec::with_capacity(columns.len());
    for (column, count) in columns.iter().zip(counts) {
        values.push(value::decode_value(&column.column_type, *count, reader.take(ATOMS_BYTES)?)?);
    }
    reader.zeros((MOST_COLUMNS - columns.len()) * ATOMS_BYTES)?;
    Some(Row { table, id, values })
}

/// A13.
fn values_meet(store: &Store) -> bool {
    store.rows.iter().all(|row| {
        let columns = &store.schema.tables[row.table].columns;
        columns
            .iter()
            .zip(&row.values)
            .all(|(column, value)| value::meets(&column.column_type, value))
    })
}
