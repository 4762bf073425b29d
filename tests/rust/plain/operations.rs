//! Section O of the rules: operations, on working rows.

use std::borrow::Cow;

use crate::answer;
use crate::area::MOST_ROWS;
use crate::conditions::{self, Condition};
use crate::error::{Error, Faults};
use crate::json::{Json, Object};
use crate::mutations;
use crate::rows::{self, Row};
use crate::schema::{is_id, Schema, Table};
use crate::value::{self, Atom, Uuid, Value};
use crate::written::{self, Names};

/// What the operations of a request run on.
pub struct Session<'a> {
    pub schema: &'a Schema<'a>,
    pub names: Names<'a>,
    /// The store's own until an operation changes them.
    pub rows: Cow<'a, [Row<'a>]>,
}

impl<'a> Session<'a> {
    /// Runs an operation with its fresh id, and gives its result's text.
    pub fn run(&mut self, operation: &'a Object, fresh: Uuid) -> Result<String, Error> {
        match operation.get("op").and_then(Json::as_str).ok_or(Error::Syntax)? {
            "insert" => self.insert(operation, fresh),
            "select" => self.select(operation),
            "update" => self.update(operation),
            "mutate" => self.mutate(operation),
            "delete" => self.delete(operation),
            "comment" => comment(operation),
            "abort" => abort(operation),
            _ => Err(Error::Syntax),
        }
    }

    /// O8.
    fn table(&self, operation: &Object) -> Result<(usize, &'a Table<'a>), Error> {
        let name = operation.get("table").and_then(Json::as_str).ok_or(Error::Syntax)?;
        let number = self.schema.table_named(name).ok_or(Error::Syntax)?;
        Ok((number, &self.schema.tables[number]))
    }

    fn conditions(&self, operation: &'a Object, table: &Table, faults: &mut Faults) -> Result<Vec<Condition<'a>>, Error> {
        conditions::read_where(operation.get("where").ok_or(Error::Syntax)?, table, &self.names, faults)
    }

    /// O17: the elements of the values of "row" by column, None for those that it does not name.
    fn written_row(
        &self,
        operation: &'a Object,
        table: &Table,
        faults: &mut Faults,
    ) -> Result<Vec<Option<Vec<Atom<'a>>>>, Error> {
        let object = operation.get("row").and_then(Json::as_object).ok_or(Error::Syntax)?;
        if !object.names().all(|name| table.column_named(name).is_some()) {
            return Err(Error::Syntax);
        }
        let mut values = Vec::with_capacity(table.columns.len());
        for column in &table.columns {
            let value = object
                .get(column.name)
                .map(|json| written::read_elements(&column.column_type, json, &self.names));
            let value = value.transpose()?;
            if let Some(elements) = &value {
                written::judge_kept(&column.column_type, elements, column.column_type.min, faults);
            }
            values.push(value);
        }
        Ok(values)
    }

    fn insert(&mut self, operation: &'a Object, fresh: Uuid) -> Result<String, Error> {
        only(operation, &["op", "table", "row", "uuid-name"])?;
        let (number, table) = self.table(operation)?;
        let mut faults = Faults::default();
        let written = self.written_row(operation, table, &mut faults)?;
        self.judge_name(operation, fresh, &mut faults)?;
        faults.unless(self.rows.len() < MOST_ROWS, Error::Resources);
        let mut values = defaults(table);
        for ((column, default), elements) in table.columns.iter().zip(&values).zip(&written) {
            let good = elements.is_some() || value::meets(&column.column_type, default);
            faults.unless(good, Error::Constraint);
        }
        faults.tell()?;
        assign(&mut values, &written);
        rows::add(
            self.rows.to_mut(),
            Row {
                table: number,
                id: fresh,
                values,
            },
        );
        Ok(answer::insert_text(&fresh))
    }

    /// O19: a name is meant by the first insert that has it, so that another insert's is a duplicate.
    fn judge_name(&self, operation: &Object, fresh: Uuid, faults: &mut Faults) -> Result<(), Error> {
        if let Some(name) = operation.get("uuid-name") {
            let name = name.as_str().filter(|name| is_id(name)).ok_or(Error::Syntax)?;
            faults.unless(self.names.get(name) == Some(&fresh), Error::DuplicateName);
        }
        Ok(())
    }

    fn select(&self, operation: &'a Object) -> Result<String, Error> {
        only(operation, &["op", "table", "where", "columns"])?;
        let (number, table) = self.table(operation)?;
        let mut faults = Faults::default();
        let conditions = self.conditions(operation, table, &mut faults)?;
        let shown = shown_columns(operation, table)?;
        faults.tell()?;
        let mut objects = Vec::new();
        for row in self.rows.iter().filter(|row| is_meant(row, number, &conditions)) {
            let object = answer::row_text(table, row, shown.as_deref());
            if !objects.contains(&object) {
                objects.push(object);
            }
        }
        Ok(answer::rows_text(&objects))
    }

    fn update(&mut self, operation: &'a Object) -> Result<String, Error> {
        only(operation, &["op", "table", "where", "row"])?;
        let (number, table) = self.table(operation)?;
        let mut faults = Faults::default();
        let conditions = self.conditions(operation, table, &mut faults)?;
        let written = self.written_row(operation, table, &mut faults)?;
        for (column, value) in table.columns.iter().zip(&written) {
            faults.unless(column.mutable || value.is_none(), Error::Constraint);
        }
        faults.tell()?;
        let mut count = 0;
        for row in self.rows.to_mut().iter_mut().filter(|row| is_meant(row, number, &conditions)) {
            assign(&mut row.values, &written);
            count += 1;
        }
        Ok(answer::count_text(count))
    }

    fn mutate(&mut self, operation: &'a Object) -> Result<String, Error> {
        only(operation, &["op", "table", "where", "mutations"])?;
        let (number, table) = self.table(operation)?;
        let mut faults = Faults::default();
        let conditions = self.conditions(operation, table, &mut faults)?;
        let written = operation.get("mutations").ok_or(Error::Syntax)?;
        let mutations = mutations::read_mutations(written, table, &self.names, &mut faults)?;
        faults.tell()?;
        let mut count = 0;
        for row in self.rows.to_mut().iter_mut().filter(|row| is_meant(row, number, &conditions)) {
            for mutation in &mutations {
                let value = &mut row.values[mutation.column];
                *value = mutation.apply(value)?;
            }
            count += 1;
        }
        Ok(answer::count_text(count))
    }

    fn delete(&mut self, operation: &'a Object) -> Result<String, Error> {
        only(operation, &["op", "table", "where"])?;
        let (number, table) = self.table(operation)?;
        let mut faults = Faults::default();
        let conditions = self.conditions(operation, table, &mut faults)?;
        faults.tell()?;
        let before = self.rows.len();
        self.rows.to_mut().retain(|row| !is_meant(row, number, &conditions));
        Ok(answer::count_text(before - self.rows.len()))
    }
}

fn defaults(table: &Table) -> Vec<Value<'static>> {
    let columns = table.columns.iter();
    columns.map(|column| value::default_value(&column.column_type)).collect()
}

/// Puts the values of "row", which have no fault, in the place of a row's.
fn assign<'a>(values: &mut [Value<'a>], written: &[Option<Vec<Atom<'a>>>]) {
    for (value, elements) in values.iter_mut().zip(written) {
        if let Some(elements) = elements {
            *value = Value::new(elements);
        }
    }
}

/// O9: no member but these.
fn only(operation: &Object, names: &[&str]) -> Result<(), Error> {
    operation.has_only(names).then_some(()).ok_or(Error::Syntax)
}

/// O18: whether a row is one of an operation's rows.
fn is_meant(row: &Row, table: usize, conditions: &[Condition]) -> bool {
    row.table == table && conditions.iter().all(|condition| condition.holds(row))
}

/// O20: the names in "columns", or None where it is not given.
fn shown_columns<'a>(operation: &'a Object, table: &Table) -> Result<Option<Vec<&'a str>>, Error> {
    let Some(columns) = operation.get("columns") else {
        return Ok(None);
    };
    let mut shown = Vec::new();
    for name in columns.as_array().ok_or(Error::Syntax)? {
        let name = name.as_str().ok_or(Error::Syntax)?;
        let known = name == "_uuid" || table.column_named(name).is_some();
        if !known || shown.contains(&name) {
            return Err(Error::Syntax);
        }
        shown.push(name);
    }
    Ok(Some(shown))
}

/// O15.
fn comment(operation: &Object) -> Result<String, Error> {
    only(operation, &["op", "comment"])?;
    operation.get("comment").and_then(Json::as_str).ok_or(Error::Syntax)?;
    Ok("{}".to_string())
}

/// O16.
fn abort(operation: &Object) -> Result<String, Error> {
    only(operation, &["op"])?;
    Err(Error::Aborted)
}
