//! Section U of the rules: mutations.

use crate::error::{Error, Faults};
use crate::json::Json;
use crate::schema::{Base, ColumnType, Table};
use crate::value::{self, Atom, Value, MOST_ELEMENTS};
use crate::written::{self, Names};

#[derive(Clone, Copy)]
enum Mutator {
    Arithmetic(Operator),
    Insert,
    Delete,
}

#[derive(Clone, Copy)]
enum Operator {
    Add,
    Subtract,
    Multiply,
    Divide,
    Remainder,
}

pub struct Mutation<'a> {
    pub column: usize,
    column_type: &'a ColumnType,
    mutator: Mutator,
    elements: Vec<Atom<'a>>,
}

pub fn read_mutations<'a>(
    json: &'a Json,
    table: &'a Table,
    names: &Names,
    faults: &mut Faults,
) -> Result<Vec<Mutation<'a>>, Error> {
    let items = json.as_array().ok_or(Error::Syntax)?;
    items.iter().map(|item| read_mutation(item, table, names, faults)).collect()
}

fn read_mutation<'a>(json: &'a Json, table: &'a Table, names: &Names, faults: &mut Faults) -> Result<Mutation<'a>, Error> {
    let Some([Json::String(name), Json::String(word), written]) = json.as_array() else {
        return Err(Error::Syntax);
    };
    let column = table.column_named(name).ok_or(Error::Syntax)?;
    let column_type = &table.columns[column].column_type;
    let mutator = mutator_named(word)
        .filter(|mutator| is_allowed(*mutator, column_type))
        .ok_or(Error::Syntax)?;
    let elements = written::read_elements(column_type, written, names)?;
    faults.unless(table.columns[column].mutable, Error::Constraint);
    match mutator {
        Mutator::Arithmetic(_) => faults.unless(elements.len() == 1, Error::Constraint),
        Mutator::Insert => written::judge_kept(column_type, &elements, 0, faults),
        Mutator::Delete => written::judge_deleted(column_type, &elements, faults),
    }
    Ok(Mutation {
        column,
        column_type,
        mutator,
        elements,
    })
}

fn mutator_named(word: &str) -> Option<Mutator> {
    match word {
        "+=" => Some(Mutator::Arithmetic(Operator::Add)),
        "-=" => Some(Mutator::Arithmetic(Operator::Subtract)),
        "*=" => Some(Mutator::Arithmetic(Operator::Multiply)),
        "/=" => Some(Mutator::Arithmetic(Operator::Divide)),
        "%=" => Some(Mutator::Arithmetic(Operator::Remainder)),
        "insert" => Some(Mutator::Insert),
        "delete" => Some(Mutator::Delete),
        _ => None,
    }
}

/// U3.
fn is_allowed(mutator: Mutator, column_type: &ColumnType) -> bool {
    match mutator {
        Mutator::Arithmetic(_) => column_type.base == Base::Integer,
        Mutator::Insert | Mutator::Delete => !column_type.is_scalar(),
    }
}

impl<'a> Mutation<'a> {
    /// One step: what the mutation makes of a value.
    pub fn apply(&self, value: &Value<'a>) -> Result<Value<'a>, Error> {
        match self.mutator {
            Mutator::Arithmetic(operator) => self.calculate(operator, value),
            Mutator::Insert => self.insert(value),
            Mutator::Delete => self.delete(value),
        }
    }

    /// U7 to U11.
    fn calculate(&self, operator: Operator, value: &Value<'a>) -> Result<Value<'a>, Error> {
        let [Atom::Integer(operand)] = self.elements[..] else {
            return Err(Error::Constraint);
        };
        let mut results = Vec::with_capacity(value.len());
        for atom in value.iter() {
            if let Atom::Integer(number) = atom {
                results.push(Atom::Integer(exact(operator, *number, operand)?));
            }
        }
        results.sort();
        let good = written::all_distinct(&results) && results.iter().all(|atom| value::in_limits(self.column_type, atom));
        good.then(|| Value::new(&results)).ok_or(Error::Constraint)
    }

    /// U12.
    fn insert(&self, value: &Value<'a>) -> Result<Value<'a>, Error> {
        let mut union = value.to_vec();
        union.extend(self.elements.iter().filter(|element| !value.contains(element)));
        union.sort();
        if union.len() > MOST_ELEMENTS {
            return Err(Error::Resources);
        }
        (union.len() <= self.column_type.max)
            .then(|| Value::new(&union))
            .ok_or(Error::Constraint)
    }

    /// U13.
    fn delete(&self, value: &Value<'a>) -> Result<Value<'a>, Error> {
        let left = value.filtered(|element| !self.elements.contains(element));
        (left.len() >= self.column_type.min).then_some(left).ok_or(Error::Constraint)
    }
}

/// The exact result, truncated toward zero, where it is an integer of 64 bits (U7 to U10).
fn exact(operator: Operator, number: i64, operand: i64) -> Result<i64, Error> {
    let (number, operand) = (i128::from(number), i128::from(operand));
    let result = match operator {
        Operator::Add => number + operand,
        Operator::Subtract => number - operand,
        Operator::Multiply => number * operand,
        Operator::Divide => number.checked_div(operand).ok_or(Error::Domain)?,
        Operator::Remainder => number.checked_rem(operand).ok_or(Error::Domain)?,
    };
    i64::try_from(result).map_err(|_| Error::Range)
}
