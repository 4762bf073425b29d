//! Rows, which lie by table and in a table by ascending id (A6).

use crate::value::{Uuid, Value};

#[derive(Clone)]
pub struct Row<'a> {
    pub table: usize,
    pub id: Uuid,
    pub values: Vec<Value<'a>>,
}

impl Row<'_> {
    fn key(&self) -> (usize, u128) {
        (self.table, u128::from_be_bytes(self.id))
    }
}

pub fn ascend(rows: &[Row]) -> bool {
    rows.windows(2).all(|pair| pair[0].key() < pair[1].key())
}

pub fn all_different<'a>(ids: impl Iterator<Item = &'a Uuid>) -> bool {
    let mut ids: Vec<u128> = ids.map(|id| u128::from_be_bytes(*id)).collect();
    ids.sort_unstable();
    ids.windows(2).all(|pair| pair[0] != pair[1])
}

/// The place of a row, or where it would stand.
fn place(rows: &[Row], table: usize, id: &Uuid) -> Result<usize, usize> {
    rows.binary_search_by_key(&(table, u128::from_be_bytes(*id)), Row::key)
}

pub fn find<'r, 'a>(rows: &'r [Row<'a>], table: usize, id: &Uuid) -> Option<&'r Row<'a>> {
    place(rows, table, id).ok().map(|at| &rows[at])
}

pub fn find_mut<'r, 'a>(rows: &'r mut [Row<'a>], table: usize, id: &Uuid) -> Option<&'r mut Row<'a>> {
    place(rows, table, id).ok().map(|at| &mut rows[at])
}

/// Adds a row that is not there.
pub fn add<'a>(rows: &mut Vec<Row<'a>>, row: Row<'a>) {
    if let Err(at) = place(rows, row.table, &row.id) {
        rows.insert(at, row);
    }
}

pub fn remove(rows: &mut Vec<Row>, table: usize, id: &Uuid) {
    if let Ok(at) = place(rows, table, id) {
        rows.remove(at);
    }
}
