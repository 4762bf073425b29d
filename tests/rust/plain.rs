//! A plain implementation of docs/RULES.md, to compare and time the library against: the calls of include/maqdufesh.h.
//! It shares no code with the crates, uses the standard library alone and keeps nothing between calls.

#[path = "plain/answer.rs"]
mod answer;
#[path = "plain/area.rs"]
mod area;
#[path = "plain/bytes.rs"]
mod bytes;
#[path = "plain/catalog.rs"]
mod catalog;
#[path = "plain/commit.rs"]
mod commit;
#[path = "plain/conditions.rs"]
mod conditions;
#[path = "plain/error.rs"]
mod error;
#[path = "plain/json.rs"]
mod json;
#[path = "plain/mirror.rs"]
mod mirror;
#[path = "plain/mutations.rs"]
mod mutations;
#[path = "plain/operations.rs"]
mod operations;
#[path = "plain/records.rs"]
mod records;
#[path = "plain/request.rs"]
mod request;
#[path = "plain/rows.rs"]
mod rows;
#[path = "plain/schema.rs"]
mod schema;
#[path = "plain/store.rs"]
mod store;
#[path = "plain/value.rs"]
mod value;
#[path = "plain/written.rs"]
mod written;

use error::Refusal;
use std::slice::{from_raw_parts, from_raw_parts_mut};
use value::Uuid;

const ACCEPTED: u32 = 0;

fn status(result: Result<(), Refusal>) -> u32 {
    match result {
        Ok(()) => ACCEPTED,
        Err(refusal) => refusal as u32,
    }
}

/// F23: a refused call makes the buffers that it writes zero.
fn status_with(result: Result<(), Refusal>, outputs: &mut [&mut [u8]]) -> u32 {
    if result.is_err() {
        for output in outputs {
            output.fill(0);
        }
    }
    status(result)
}

#[no_mangle]
pub extern "C" fn maq_store_area_len() -> u64 {
    area::STORE_BYTES as u64
}

#[no_mangle]
pub extern "C" fn maq_mirror_area_len() -> u64 {
    area::MIRROR_BYTES as u64
}

// The pointers of every call below are the caller's promise: each is of as many bytes as its length says, and no two buffers overlap (F26).

/// # Safety
/// Buffers as F26 says.
#[no_mangle]
pub unsafe extern "C" fn maq_store_start(area: *mut u8, area_len: usize, schema: *const u8, schema_len: usize, run: u32) -> u32 {
    status(store::start(
        from_raw_parts_mut(area, area_len),
        from_raw_parts(schema, schema_len),
        run,
    ))
}

/// # Safety
/// Buffers as F26 says.
#[no_mangle]
pub unsafe extern "C" fn maq_store_transact(
    area: *mut u8,
    area_len: usize,
    request: *const u8,
    request_len: usize,
    fresh: *const u8,
    fresh_len: usize,
    records: *mut u8,
    records_len: usize,
    answer: *mut u8,
    answer_len: usize,
) -> u32 {
    let area = from_raw_parts_mut(area, area_len);
    let request = from_raw_parts(request, request_len);
    let fresh = from_raw_parts(fresh, fresh_len);
    let records = from_raw_parts_mut(records, records_len);
    let answer = from_raw_parts_mut(answer, answer_len);
    let result = store::transact(area, request, fresh, records, answer);
    status_with(result, &mut [records, answer])
}

/// # Safety
/// Buffers as F26 says.
#[no_mangle]
pub unsafe extern "C" fn maq_store_mark(area: *const u8, area_len: usize, mark: *mut u8, mark_len: usize) -> u32 {
    let mark = from_raw_parts_mut(mark, mark_len);
    let result = store::mark(from_raw_parts(area, area_len), mark);
    status_with(result, &mut [mark])
}

/// # Safety
/// Buffers as F26 says.
#[no_mangle]
pub unsafe extern "C" fn maq_mirror_start(area: *mut u8, area_len: usize, schema: *const u8, schema_len: usize, run: u32) -> u32 {
    status(mirror::start(
        from_raw_parts_mut(area, area_len),
        from_raw_parts(schema, schema_len),
        run,
    ))
}

/// # Safety
/// Buffers as F26 says.
#[no_mangle]
pub unsafe extern "C" fn maq_mirror_hear(area: *mut u8, area_len: usize, record: *const u8, record_len: usize) -> u32 {
    match mirror::hear(from_raw_parts_mut(area, area_len), from_raw_parts(record, record_len)) {
        Ok(heard) => heard as u32,
        Err(refusal) => refusal as u32,
    }
}

/// # Safety
/// Buffers as F26 says.
#[no_mangle]
pub unsafe extern "C" fn maq_mirror_progress(area: *const u8, area_len: usize, out: *mut u8, out_len: usize) -> u32 {
    let out = from_raw_parts_mut(out, out_len);
    let result = mirror::progress(from_raw_parts(area, area_len), out);
    status_with(result, &mut [out])
}

/// # Safety
/// Buffers as F26 says; `id` is of 16 bytes.
#[no_mangle]
pub unsafe extern "C" fn maq_mirror_has_row(
    area: *const u8,
    area_len: usize,
    table: u32,
    id: *const u8,
    out: *mut u8,
    out_len: usize,
) -> u32 {
    let out = from_raw_parts_mut(out, out_len);
    let result = mirror::has_row(from_raw_parts(area, area_len), table, &*id.cast::<Uuid>(), out);
    status_with(result, &mut [out])
}

/// # Safety
/// Buffers as F26 says; `id` is of 16 bytes.
#[no_mangle]
pub unsafe extern "C" fn maq_mirror_column(
    area: *const u8,
    area_len: usize,
    table: u32,
    id: *const u8,
    column: u32,
    out: *mut u8,
    out_len: usize,
) -> u32 {
    let out = from_raw_parts_mut(out, out_len);
    let result = mirror::column(from_raw_parts(area, area_len), table, &*id.cast::<Uuid>(), column, out);
    status_with(result, &mut [out])
}
