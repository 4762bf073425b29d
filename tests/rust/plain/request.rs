//! A request: the name of a database and operations (O1, F13).

use std::borrow::Cow;

use crate::json::{self, Json, Object};
use crate::value::Uuid;
use crate::written::Names;

const MOST_REQUEST_BYTES: usize = 8192;
const MOST_OPERATIONS: usize = 16;

pub struct Request<'a> {
    pub database: Cow<'a, str>,
    pub operations: Vec<Object<'a>>,
}

/// The request of a text, or None where it is refused.
pub fn read_request(text: &[u8]) -> Option<Request<'_>> {
    if text.len() > MOST_REQUEST_BYTES {
        return None;
    }
    let Json::Array(items) = json::parse(text)? else {
        return None;
    };
    let mut items = items.into_iter();
    let Json::String(database) = items.next()? else {
        return None;
    };
    let operations = items.map(as_operation).collect::<Option<Vec<_>>>()?;
    (operations.len() <= MOST_OPERATIONS).then_some(Request { database, operations })
}

fn as_operation(json: Json<'_>) -> Option<Object<'_>> {
    match json {
        Json::Object(object) => Some(object),
        _ => None,
    }
}

/// W6 and W7: of a name given by several inserts the first is meant.
pub fn uuid_names<'a>(operations: &'a [Object], fresh: &[Uuid]) -> Names<'a> {
    let mut names = Names::new();
    for (operation, id) in operations.iter().zip(fresh) {
        if let Some(name) = insert_name(operation) {
            names.entry(name).or_insert(*id);
        }
    }
    names
}

fn insert_name<'a>(operation: &'a Object) -> Option<&'a str> {
    match operation.get("op")?.as_str()? {
        "insert" => operation.get("uuid-name")?.as_str(),
        _ => None,
    }
}
