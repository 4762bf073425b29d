//! Section K of the rules: conditions.

use crate::error::{Error, Faults};
use crate::json::Json;
use crate::rows::Row;
use crate::schema::{Base, ColumnType, Table};
use crate::value::Atom;
use crate::written::{self, Names};

#[derive(Clone, Copy, PartialEq)]
enum Function {
    Less,
    AtMost,
    Equal,
    Unequal,
    AtLeast,
    Greater,
    Includes,
    Excludes,
}

#[derive(Clone, Copy)]
enum Subject {
    Id,
    Column(usize),
}

pub struct Condition<'a> {
    subject: Subject,
    function: Function,
    elements: Vec<Atom<'a>>,
}

/// K2: the type of "_uuid".
const ID_TYPE: ColumnType = ColumnType::scalar(Base::Uuid);

/// O18.
pub fn read_where<'a>(json: &'a Json, table: &Table, names: &Names, faults: &mut Faults) -> Result<Vec<Condition<'a>>, Error> {
    let items = json.as_array().ok_or(Error::Syntax)?;
    items.iter().map(|item| read_condition(item, table, names, faults)).collect()
}

fn read_condition<'a>(json: &'a Json, table: &Table, names: &Names, faults: &mut Faults) -> Result<Condition<'a>, Error> {
    let Some([Json::String(name), Json::String(word), written]) = json.as_array() else {
        return Err(Error::Syntax);
    };
    let (subject, column_type) = subject_named(name, table).ok_or(Error::Syntax)?;
    let function = function_named(word)
        .filter(|function| is_allowed(*function, column_type))
        .ok_or(Error::Syntax)?;
    let elements = written::read_elements(column_type, written, names)?;
    let good = written::all_distinct(&elements) && count_good(function, column_type, elements.len());
    faults.unless(good, Error::Constraint);
    Ok(Condition {
        subject,
        function,
        elements,
    })
}

fn subject_named<'a>(name: &str, table: &'a Table<'_>) -> Option<(Subject, &'a ColumnType)> {
    if name == "_uuid" {
        return Some((Subject::Id, &ID_TYPE));
    }
    let column = table.column_named(name)?;
    Some((Subject::Column(column), &table.columns[column].column_type))
}

fn function_named(word: &str) -> Option<Function> {
    match word {
        "<" => Some(Function::Less),
        "<=" => Some(Function::AtMost),
        "==" => Some(Function::Equal),
        "!=" => Some(Function::Unequal),
        ">=" => Some(Function::AtLeast),
        ">" => Some(Function::Greater),
        "includes" => Some(Function::Includes),
        "excludes" => Some(Function::Excludes),
        _ => None,
    }
}

/// K4.
fn is_allowed(function: Function, column_type: &ColumnType) -> bool {
    match function {
        Function::Less | Function::AtMost | Function::AtLeast | Function::Greater => {
            column_type.base == Base::Integer && column_type.is_scalar()
        }
        Function::Equal | Function::Unequal | Function::Includes | Function::Excludes => true,
    }
}

/// K6 and K7.
fn count_good(function: Function, column_type: &ColumnType, count: usize) -> bool {
    if column_type.is_scalar() {
        return count == 1;
    }
    match function {
        Function::Excludes => true,
        Function::Includes => count <= column_type.max,
        _ => (column_type.min..=column_type.max).contains(&count),
    }
}

impl Condition<'_> {
    pub fn holds(&self, row: &Row) -> bool {
        match self.subject {
            Subject::Id => self.compare(&[Atom::Uuid(row.id)]),
            Subject::Column(column) => self.compare(&row.values[column]),
        }
    }

    /// K9 to K12; integers are compared as values of one element.
    fn compare(&self, value: &[Atom]) -> bool {
        let elements = self.elements.as_slice();
        match self.function {
            Function::Less => value < elements,
            Function::AtMost => value <= elements,
            Function::Equal => value == elements,
            Function::Unequal => value != elements,
            Function::AtLeast => value >= elements,
            Function::Greater => value > elements,
            Function::Includes => elements.iter().all(|element| value.contains(element)),
            Function::Excludes => !elements.iter().any(|element| value.contains(element)),
        }
    }
}
