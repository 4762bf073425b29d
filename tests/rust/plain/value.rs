//! Section V of the rules: atoms and values, and their bytes.

use std::ops::Deref;

use crate::bytes::all_zero;
use crate::schema::{Base, ColumnType};

pub const MOST_ELEMENTS: usize = 4;
pub const MOST_TEXT_BYTES: usize = 24;
pub const ATOM_BYTES: usize = 25;
/// The four atoms of a value.
pub const ATOMS_BYTES: usize = MOST_ELEMENTS * ATOM_BYTES;

pub type Uuid = [u8; 16];

/// An element of a value. The order among those of one type is V7's.
#[derive(Clone, Copy, PartialEq, Eq, PartialOrd, Ord)]
pub enum Atom<'a> {
    Integer(i64),
    Boolean(bool),
    String(&'a str),
    Uuid(Uuid),
}

/// The elements of a value, ascending; it is used as the slice of them.
#[derive(Clone, Copy)]
pub struct Value<'a> {
    count: usize,
    atoms: [Atom<'a>; MOST_ELEMENTS],
}

impl<'a> Value<'a> {
    pub const EMPTY: Self = Value {
        count: 0,
        atoms: [Atom::Boolean(false); MOST_ELEMENTS],
    };

    /// The value of ascending elements, which are no more than four.
    pub fn new(elements: &[Atom<'a>]) -> Self {
        let mut value = Value::EMPTY;
        value.atoms[..elements.len()].copy_from_slice(elements);
        value.count = elements.len();
        value
    }

    /// Adds an element that is above all others, to fewer than four.
    fn push(&mut self, element: Atom<'a>) {
        self.atoms[self.count] = element;
        self.count += 1;
    }

    /// The elements that are to stay.
    pub fn filtered(&self, stays: impl Fn(&Atom<'a>) -> bool) -> Self {
        let mut value = Value::EMPTY;
        for element in self.iter().filter(|element| stays(element)) {
            value.push(*element);
        }
        value
    }
}

impl<'a> Deref for Value<'a> {
    type Target = [Atom<'a>];

    fn deref(&self) -> &Self::Target {
        &self.atoms[..self.count]
    }
}

impl PartialEq for Value<'_> {
    fn eq(&self, other: &Self) -> bool {
        **self == **other
    }
}

/// V12.
pub fn default_value(column_type: &ColumnType) -> Value<'static> {
    if column_type.min == 0 {
        return Value::EMPTY;
    }
    Value::new(&[match column_type.base {
        Base::Integer => Atom::Integer(0),
        Base::Boolean => Atom::Boolean(false),
        Base::String => Atom::String(""),
        Base::Uuid => Atom::Uuid([0; 16]),
    }])
}

/// Whether an atom is in its column's limits of range or length (V11).
pub fn in_limits(column_type: &ColumnType, atom: &Atom) -> bool {
    let measure = match atom {
        Atom::Integer(number) => *number,
        Atom::String(text) => text.chars().count() as i64,
        Atom::Boolean(_) | Atom::Uuid(_) => return true,
    };
    (column_type.low..=column_type.high).contains(&measure)
}

/// V11, of a value in canonical form.
pub fn meets(column_type: &ColumnType, value: &[Atom]) -> bool {
    (column_type.min..=column_type.max).contains(&value.len()) && value.iter().all(|atom| in_limits(column_type, atom))
}

/// Adds the four atoms of a value.
pub fn encode_atoms(value: &[Atom], out: &mut Vec<u8>) {
    let end = out.len() + ATOMS_BYTES;
    for atom in value {
        encode_atom(atom, out);
    }
    out.resize(end, 0);
}

/// V2 to V5.
fn encode_atom(atom: &Atom, out: &mut Vec<u8>) {
    let end = out.len() + ATOM_BYTES;
    match atom {
        Atom::Integer(number) => out.extend(number.to_be_bytes()),
        Atom::Boolean(truth) => out.push(u8::from(*truth)),
        Atom::String(text) => {
            out.push(text.len() as u8);
            out.extend(text.as_bytes());
        }
        Atom::Uuid(uuid) => out.extend(uuid),
    }
    out.resize(end, 0);
}

/// The value of a count and four atoms, or None where it is not in canonical form for its column (V9).
pub fn decode_value<'a>(column_type: &ColumnType, count: u8, atoms: &'a [u8]) -> Option<Value<'a>> {
    let count = usize::from(count);
    if count > MOST_ELEMENTS || (column_type.is_scalar() && count != 1) {
        return None;
    }
    let (used, unused) = atoms.split_at(count * ATOM_BYTES);
    let mut value = Value::EMPTY;
    for atom in used.chunks_exact(ATOM_BYTES) {
        value.push(decode_atom(column_type.base, atom)?);
    }
    let ascends = value.windows(2).all(|pair| pair[0] < pair[1]);
    (ascends && all_zero(unused)).then_some(value)
}

/// V10.
fn decode_atom(base: Base, bytes: &[u8]) -> Option<Atom<'_>> {
    let (atom, used) = match base {
        Base::Integer => (Atom::Integer(i64::from_be_bytes(bytes[..8].try_into().ok()?)), 8),
        Base::Boolean => match bytes[0] {
            0 => (Atom::Boolean(false), 1),
            1 => (Atom::Boolean(true), 1),
            _ => return None,
        },
        Base::String => {
            let end = 1 + usize::from(bytes[0]);
            let text = std::str::from_utf8(bytes.get(1..end)?).ok()?;
            if text.contains('\0') {
                return None;
            }
            (Atom::String(text), end)
        }
        Base::Uuid => (Atom::Uuid(bytes[..16].try_into().ok()?), 16),
    };
    all_zero(&bytes[used..]).then_some(atom)
}
