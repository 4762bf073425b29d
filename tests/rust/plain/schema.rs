//! Section S of the rules: what a schema's text is read as.

use crate::json::{self, Json, Object};
use crate::value::{MOST_ELEMENTS, MOST_TEXT_BYTES};

pub const MOST_TABLES: usize = 4;
pub const MOST_COLUMNS: usize = 6;
pub const MOST_INDEXES: usize = 2;
pub const MOST_INDEX_COLUMNS: usize = 3;
const MOST_SCHEMA_BYTES: usize = 4096;

pub struct Schema<'a> {
    pub name: &'a str,
    pub tables: Vec<Table<'a>>,
}

pub struct Table<'a> {
    pub name: &'a str,
    pub columns: Vec<Column<'a>>,
    /// As the schema says it; see `Schema::is_root`.
    pub is_root: bool,
    pub max_rows: Option<i64>,
    /// The numbers of the columns of each index.
    pub indexes: Vec<Vec<usize>>,
}

pub struct Column<'a> {
    pub name: &'a str,
    pub column_type: ColumnType,
    pub mutable: bool,
}

pub struct ColumnType {
    pub base: Base,
    pub reference: Option<Reference>,
    pub min: usize,
    pub max: usize,
    /// The limits of an integer, or of a string's length in characters.
    pub low: i64,
    pub high: i64,
}

#[derive(Clone, Copy, PartialEq)]
pub enum Base {
    Integer,
    Boolean,
    String,
    Uuid,
}

#[derive(Clone, Copy)]
pub struct Reference {
    pub table: usize,
    pub strength: Strength,
}

#[derive(Clone, Copy, PartialEq)]
pub enum Strength {
    Strong,
    Weak,
}

impl Schema<'_> {
    pub fn table_named(&self, name: &str) -> Option<usize> {
        self.tables.iter().position(|table| table.name == name)
    }

    /// S13: where no table says that it is root, all are.
    pub fn is_root(&self, table: usize) -> bool {
        self.tables[table].is_root || !self.tables.iter().any(|table| table.is_root)
    }
}

impl Table<'_> {
    pub fn column_named(&self, name: &str) -> Option<usize> {
        self.columns.iter().position(|column| column.name == name)
    }
}

impl ColumnType {
    /// A scalar with no limits and no reference.
    pub const fn scalar(base: Base) -> Self {
        ColumnType {
            base,
            reference: None,
            min: 1,
            max: 1,
            low: i64::MIN,
            high: i64::MAX,
        }
    }

    /// S23.
    pub fn is_scalar(&self) -> bool {
        self.min == 1 && self.max == 1
    }
}

/// S5.
pub fn is_id(text: &str) -> bool {
    text.len() <= MOST_TEXT_BYTES
        && text.starts_with(|first: char| first.is_ascii_alphabetic())
        && text.bytes().all(|byte| byte.is_ascii_alphanumeric() || byte == b'_')
}

/// The tree of a schema's text, or None where it is too long or not JSON.
pub fn parse_text(text: &[u8]) -> Option<Json<'_>> {
    ensure(text.len() <= MOST_SCHEMA_BYTES)?;
    json::parse(text)
}

/// The schema of a tree, or None where it breaks a rule.
pub fn read_schema<'a>(json: &'a Json) -> Option<Schema<'a>> {
    let object = members(json, &["name", "version", "tables"], &["cksum"])?;
    let name = object.get("name")?.as_str()?;
    ensure(is_id(name) && is_version(object.get("version")?.as_str()?))?;
    ensure(object.get("cksum").is_none_or(|cksum| cksum.as_str().is_some()))?;
    let parts = named_parts(object.get("tables")?, MOST_TABLES)?;
    let names: Vec<&str> = parts.iter().map(|(name, _)| *name).collect();
    let tables = parts
        .iter()
        .map(|(name, table)| read_table(name, table, &names))
        .collect::<Option<_>>()?;
    Some(Schema { name, tables })
}

fn ensure(good: bool) -> Option<()> {
    good.then_some(())
}

/// An object that has all required members, and none but these and the optional ones.
fn members<'a>(json: &'a Json<'a>, required: &[&str], optional: &[&str]) -> Option<&'a Object<'a>> {
    let object = json.as_object()?;
    ensure(required.iter().all(|name| object.get(name).is_some()))?;
    ensure(
        object
            .names()
            .all(|name| required.contains(&name) || optional.contains(&name)),
    )?;
    Some(object)
}

/// The tables of a schema or the columns of a table (S6, S8, S10).
fn named_parts<'a>(json: &'a Json<'a>, most: usize) -> Option<Vec<(&'a str, &'a Json<'a>)>> {
    let parts = json.as_object()?.counting();
    ensure(parts.len() <= most && parts.iter().all(|(name, _)| is_id(name)))?;
    Some(parts)
}

/// S3.
fn is_version(text: &str) -> bool {
    let parts: Vec<&str> = text.split('.').collect();
    parts.len() == 3
        && parts
            .iter()
            .all(|part| !part.is_empty() && part.bytes().all(|byte| byte.is_ascii_digit()))
}

/// An optional member that is true or false.
fn flag(object: &Object, name: &str, default: bool) -> Option<bool> {
    object.get(name).map_or(Some(default), Json::as_bool)
}

/// An optional member that is an integer.
fn integer(object: &Object, name: &str, default: i64) -> Option<i64> {
    object.get(name).map_or(Some(default), Json::as_integer)
}

fn read_table<'a>(name: &'a str, json: &'a Json, tables: &[&str]) -> Option<Table<'a>> {
    let object = members(json, &["columns"], &["maxRows", "isRoot", "indexes"])?;
    let parts = named_parts(object.get("columns")?, MOST_COLUMNS)?;
    let columns = parts
        .iter()
        .map(|(name, column)| read_column(name, column, tables))
        .collect::<Option<Vec<_>>>()?;
    let max_rows = match object.get("maxRows") {
        Some(most) => Some(most.as_integer().filter(|most| *most >= 1)?),
        None => None,
    };
    let indexes = match object.get("indexes") {
        Some(indexes) => read_indexes(indexes, &parts)?,
        None => Vec::new(),
    };
    Some(Table {
        name,
        columns,
        is_root: flag(object, "isRoot", false)?,
        max_rows,
        indexes,
    })
}

/// S14 to S16; `columns` are those of the table, as written.
fn read_indexes(json: &Json, columns: &[(&str, &Json)]) -> Option<Vec<Vec<usize>>> {
    let indexes = json.as_array()?;
    ensure(indexes.len() <= MOST_INDEXES)?;
    indexes.iter().map(|index| read_index(index, columns)).collect()
}

fn read_index(json: &Json, columns: &[(&str, &Json)]) -> Option<Vec<usize>> {
    let names = json.as_array()?;
    ensure((1..=MOST_INDEX_COLUMNS).contains(&names.len()))?;
    names.iter().map(|name| read_indexed_column(name, columns)).collect()
}

fn read_indexed_column(json: &Json, columns: &[(&str, &Json)]) -> Option<usize> {
    let name = json.as_str()?;
    let column = columns.iter().position(|(other, _)| *other == name)?;
    ensure(!flag(columns[column].1.as_object()?, "ephemeral", false)?)?;
    Some(column)
}

/// S17 to S19.
fn read_column<'a>(name: &'a str, json: &Json, tables: &[&str]) -> Option<Column<'a>> {
    let object = members(json, &["type"], &["ephemeral", "mutable"])?;
    flag(object, "ephemeral", false)?;
    Some(Column {
        name,
        column_type: read_type(object.get("type")?, tables)?,
        mutable: flag(object, "mutable", true)?,
    })
}

/// S20 to S22.
fn read_type(json: &Json, tables: &[&str]) -> Option<ColumnType> {
    if json.as_object().is_none() {
        return read_key(json, tables);
    }
    let object = members(json, &["key"], &["min", "max"])?;
    let min = integer(object, "min", 1)?;
    let max = match object.get("max") {
        Some(Json::String(word)) if word == "unlimited" => MOST_ELEMENTS as i64,
        _ => integer(object, "max", 1)?,
    };
    ensure((0..=1).contains(&min) && (1..=MOST_ELEMENTS as i64).contains(&max))?;
    Some(ColumnType {
        min: min as usize,
        max: max as usize,
        ..read_key(object.get("key")?, tables)?
    })
}

/// S24 to S29.
fn read_key(json: &Json, tables: &[&str]) -> Option<ColumnType> {
    if json.as_object().is_none() {
        return read_base(json).map(ColumnType::scalar);
    }
    let limits = ["minInteger", "maxInteger", "minLength", "maxLength"];
    let optional = [limits[0], limits[1], limits[2], limits[3], "refTable", "refType"];
    let object = members(json, &["type"], &optional)?;
    let base = read_base(object.get("type")?)?;
    let own = match base {
        Base::Integer => &limits[..2],
        Base::String => &limits[2..],
        Base::Boolean | Base::Uuid => &[],
    };
    ensure(limits.iter().all(|name| own.contains(name) || object.get(name).is_none()))?;
    let mut key = ColumnType::scalar(base);
    if let [low, high] = own {
        key.low = integer(object, low, i64::MIN)?;
        key.high = integer(object, high, i64::MAX)?;
    }
    ensure(key.low <= key.high)?;
    key.reference = read_reference(object, base, tables)?;
    Some(key)
}

fn read_base(json: &Json) -> Option<Base> {
    match json.as_str()? {
        "integer" => Some(Base::Integer),
        "boolean" => Some(Base::Boolean),
        "string" => Some(Base::String),
        "uuid" => Some(Base::Uuid),
        _ => None,
    }
}

/// S30 and S31; the outer Option is None where they are broken.
fn read_reference(object: &Object, base: Base, tables: &[&str]) -> Option<Option<Reference>> {
    let Some(table) = object.get("refTable") else {
        return object.get("refType").is_none().then_some(None);
    };
    let name = table.as_str()?;
    let table = tables.iter().position(|other| *other == name)?;
    let strength = match object.get("refType").map_or(Some("strong"), Json::as_str)? {
        "strong" => Strength::Strong,
        "weak" => Strength::Weak,
        _ => return None,
    };
    ensure(base == Base::Uuid)?;
    Some(Some(Reference { table, strength }))
}
