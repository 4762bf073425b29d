//! The calls of a store (F1, F4, F5).

use std::borrow::Cow;

use crate::answer;
use crate::area::{self, Store, STORE_BYTES};
use crate::bytes::fill;
use crate::commit;
use crate::error::{Error, Refusal};
use crate::json::Object;
use crate::operations::Session;
use crate::records::{self, Change};
use crate::request::{self, Request};
use crate::rows::{self, Row};
use crate::schema;
use crate::value::Uuid;

const FRESH_BYTES: usize = 256;
const LEAST_RECORDS: usize = 26249;
const LEAST_ANSWER: usize = 64;
const LEAST_MARK: usize = 9;

/// F1.
pub fn start(area: &mut [u8], schema: &[u8], run: u32) -> Result<(), Refusal> {
    if area.len() != STORE_BYTES {
        return Err(Refusal::WrongLength);
    }
    let text = schema::parse_text(schema).ok_or(Refusal::BadSchema)?;
    let schema = schema::read_schema(&text).ok_or(Refusal::BadSchema)?;
    area.copy_from_slice(&area::encode_store(run, 0, &schema, &[]));
    Ok(())
}

/// F5.
pub fn mark(area: &[u8], mark: &mut [u8]) -> Result<(), Refusal> {
    if area.len() != STORE_BYTES || mark.len() < LEAST_MARK {
        return Err(Refusal::WrongLength);
    }
    let store = area::decode_store(area).ok_or(Refusal::Disordered)?;
    fill(mark, &records::encode_mark(store.run, store.number));
    Ok(())
}

/// F4.
pub fn transact(area: &mut [u8], request: &[u8], fresh: &[u8], records: &mut [u8], answer: &mut [u8]) -> Result<(), Refusal> {
    let buffers_good = records.len() >= LEAST_RECORDS && answer.len() >= LEAST_ANSWER;
    if area.len() != STORE_BYTES || fresh.len() != FRESH_BYTES || !buffers_good {
        return Err(Refusal::WrongLength);
    }
    let store = area::decode_store(area).ok_or(Refusal::Disordered)?;
    let request = request::read_request(request).ok_or(Refusal::BadRequest)?;
    if request.database != store.schema.name {
        return Err(Refusal::OtherDatabase);
    }
    let fresh = fresh_ids(fresh, &store.rows).ok_or(Refusal::BadFreshIds)?;
    let (text, rows) = run_request(&store, &request, fresh);
    if text.len() > answer.len() {
        return Err(Refusal::AnswerTooLong);
    }
    let mut written = Vec::new();
    if let Some(rows) = rows {
        let changes = records::changes(&store.rows, &rows);
        let number = last_number(store.number, &changes)?;
        written = encode_records(&store, number, &changes);
        let after = area::encode_store(store.run, number, &store.schema, &rows);
        area.copy_from_slice(&after);
    }
    fill(records, &written);
    fill(answer, text.as_bytes());
    Ok(())
}

/// F15 and F16.
fn fresh_ids<'a>(bytes: &'a [u8], rows: &[Row]) -> Option<&'a [Uuid]> {
    let (ids, _) = bytes.as_chunks();
    let all = ids.iter().chain(rows.iter().map(|row| &row.id));
    (!ids.contains(&[0; 16]) && rows::all_different(all)).then_some(ids)
}

/// The answer's text, and the rows after the commit where an operation touched them and all went well.
fn run_request<'a>(store: &'a Store<'a>, request: &'a Request, fresh: &[Uuid]) -> (String, Option<Vec<Row<'a>>>) {
    let mut session = Session {
        schema: &store.schema,
        names: request::uuid_names(&request.operations, fresh),
        rows: Cow::Borrowed(&store.rows),
    };
    let (mut results, outcome) = run_operations(&mut session, &request.operations, fresh);
    let mut committed = None;
    // Rows that no operation touched are as the last commit left them.
    if let (Ok(()), Cow::Owned(mut rows)) = (outcome, session.rows) {
        match commit::commit(&store.schema, &mut rows) {
            Ok(()) => committed = Some(rows),
            Err(error) => results.push(answer::error_text(error)),
        }
    }
    (format!("[{}]", results.join(",")), committed)
}

/// O4: the results, those after an error null.
fn run_operations<'a>(session: &mut Session<'a>, operations: &'a [Object], fresh: &[Uuid]) -> (Vec<String>, Result<(), Error>) {
    let mut results = Vec::with_capacity(operations.len() + 1);
    for (operation, id) in operations.iter().zip(fresh) {
        match session.run(operation, *id) {
            Ok(text) => results.push(text),
            Err(error) => {
                results.push(answer::error_text(error));
                results.resize(operations.len(), "null".to_string());
                return (results, Err(error));
            }
        }
    }
    (results, Ok(()))
}

/// R12: the number of the last record.
fn last_number(number: u32, changes: &[Change]) -> Result<u32, Refusal> {
    number.checked_add(changes.len() as u32).ok_or(Refusal::NumbersSpent)
}

/// The records of changes, the last with some number.
fn encode_records(store: &Store, last: u32, changes: &[Change]) -> Vec<u8> {
    let mut written = Vec::with_capacity(changes.len() * records::MOST_RECORD_BYTES);
    for (number, change) in (store.number..=last).skip(1).zip(changes) {
        records::encode_record(store.run, number, change, &mut written);
    }
    written
}
