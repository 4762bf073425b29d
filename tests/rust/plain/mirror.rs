//! Section M of the rules: the calls of a mirror.

use crate::area::{self, Mirror, Store, MIRROR_BYTES, MOST_ROWS};
use crate::bytes::fill;
use crate::error::Refusal;
use crate::records::{self, Arrival, Change};
use crate::rows::{self, Row};
use crate::schema::{self, Schema};
use crate::value::{self, Uuid};

const PROGRESS_BYTES: usize = 5;
const PRESENCE_BYTES: usize = 1;
const COLUMN_BYTES: usize = 1 + value::ATOMS_BYTES;

/// M10.
#[derive(Clone, Copy)]
#[repr(u32)]
pub enum Heard {
    Repeat = 100,
    Behind = 101,
    Mark = 102,
    Applied = 103,
}

/// F2.
pub fn start(area: &mut [u8], schema: &[u8], run: u32) -> Result<(), Refusal> {
    if area.len() != MIRROR_BYTES {
        return Err(Refusal::WrongLength);
    }
    let text = schema::parse_text(schema).ok_or(Refusal::BadSchema)?;
    let schema = schema::read_schema(&text).ok_or(Refusal::BadSchema)?;
    let store = Store {
        run,
        number: 0,
        schema,
        rows: Vec::new(),
    };
    area.copy_from_slice(&area::encode_mirror(&Mirror {
        store,
        highest: 0,
        heard: false,
        at_end: true,
    }));
    Ok(())
}

/// F6.
pub fn hear(area: &mut [u8], bytes: &[u8]) -> Result<Heard, Refusal> {
    if area.len() != MIRROR_BYTES {
        return Err(Refusal::WrongLength);
    }
    let mut mirror = area::decode_mirror(area).ok_or(Refusal::Disordered)?;
    let arrival = records::decode(&mirror.store.schema, bytes).ok_or(Refusal::BadRecord)?;
    let heard = mirror.arrive(arrival)?;
    let bytes = match heard {
        Heard::Repeat => Vec::new(),
        Heard::Behind | Heard::Mark => area::encode_hearing(&mirror),
        Heard::Applied => area::encode_mirror(&mirror),
    };
    let kept = area.len() - bytes.len();
    area[kept..].copy_from_slice(&bytes);
    Ok(heard)
}

impl<'a> Mirror<'a> {
    fn arrive(&mut self, arrival: Arrival<'a>) -> Result<Heard, Refusal> {
        match arrival {
            Arrival::Record { run, number, change } => self.arrive_record(run, number, change),
            Arrival::Mark { run, .. } if run != self.store.run => Err(Refusal::OtherRun),
            Arrival::Mark { number, .. } => {
                self.note(number);
                Ok(Heard::Mark)
            }
        }
    }

    /// M8 to M15.
    fn arrive_record(&mut self, run: u32, number: u32, change: Change<'a>) -> Result<Heard, Refusal> {
        let is_next = self.store.number.checked_add(1) == Some(number);
        if is_next && !fits(&change, &self.store.rows) {
            return Err(Refusal::BadRecord);
        }
        if run != self.store.run {
            return Err(Refusal::OtherRun);
        }
        if number <= self.store.number {
            return Ok(Heard::Repeat);
        }
        self.note(number);
        if !is_next {
            return Ok(Heard::Behind);
        }
        self.store.number = number;
        self.at_end = matches!(change, Change::End);
        act(change, &self.store.schema, &mut self.store.rows);
        Ok(Heard::Applied)
    }

    fn note(&mut self, number: u32) {
        self.heard = true;
        self.highest = self.highest.max(number);
    }

    /// M16.
    fn is_level(&self) -> bool {
        self.heard && self.store.number == self.highest && self.at_end
    }
}

/// M8.
fn fits(change: &Change, rows: &[Row]) -> bool {
    match change {
        Change::Born { id, .. } => rows.len() < MOST_ROWS && rows.iter().all(|row| row.id != *id),
        Change::Gone { table, id } | Change::Column { table, id, .. } => rows::find(rows, *table, id).is_some(),
        Change::End => true,
    }
}

/// M2 to M4, of a change that fits.
fn act<'a>(change: Change<'a>, schema: &Schema, rows: &mut Vec<Row<'a>>) {
    match change {
        Change::Born { table, id } => {
            let columns = &schema.tables[table].columns;
            let values = columns
                .iter()
                .map(|column| value::default_value(&column.column_type))
                .collect();
            rows::add(rows, Row { table, id, values });
        }
        Change::Gone { table, id } => rows::remove(rows, table, &id),
        Change::Column {
            table,
            id,
            column,
            value,
        } => {
            if let Some(row) = rows::find_mut(rows, table, &id) {
                row.values[column] = value;
            }
        }
        Change::End => (),
    }
}

/// The mirror of a question, whose output has exactly some length.
fn asked<'a>(area: &'a [u8], out: &[u8], length: usize) -> Result<Mirror<'a>, Refusal> {
    if area.len() != MIRROR_BYTES || out.len() != length {
        return Err(Refusal::WrongLength);
    }
    area::decode_mirror(area).ok_or(Refusal::Disordered)
}

/// M18.
pub fn progress(area: &[u8], out: &mut [u8]) -> Result<(), Refusal> {
    let mirror = asked(area, out, PROGRESS_BYTES)?;
    out[..4].copy_from_slice(&mirror.store.number.to_be_bytes());
    out[4] = u8::from(mirror.is_level());
    Ok(())
}

/// M19 and M21.
pub fn has_row(area: &[u8], table: u32, id: &Uuid, out: &mut [u8]) -> Result<(), Refusal> {
    let mirror = asked(area, out, PRESENCE_BYTES)?;
    out[0] = u8::from(rows::find(&mirror.store.rows, table as usize, id).is_some());
    Ok(())
}

/// M20 and M21.
pub fn column(area: &[u8], table: u32, id: &Uuid, column: u32, out: &mut [u8]) -> Result<(), Refusal> {
    let mirror = asked(area, out, COLUMN_BYTES)?;
    let row = rows::find(&mirror.store.rows, table as usize, id);
    let mut answer = Vec::with_capacity(COLUMN_BYTES);
    if let Some(value) = row.and_then(|row| row.values.get(column as usize)) {
        answer.push(value.len() as u8);
        value::encode_atoms(value, &mut answer);
    }
    fill(out, &answer);
    Ok(())
}
