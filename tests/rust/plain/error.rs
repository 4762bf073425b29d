//! Refusals of calls (section F) and errors of operations and commits (section E).

#[derive(Clone, Copy)]
#[repr(u32)]
pub enum Refusal {
    Disordered = 1,
    WrongLength = 2,
    BadSchema = 3,
    BadRequest = 4,
    OtherDatabase = 5,
    BadFreshIds = 6,
    AnswerTooLong = 7,
    BadRecord = 8,
    OtherRun = 9,
    NumbersSpent = 10,
}

/// The errors, those of an operation as written in the order in which they are looked for (E2).
#[derive(Clone, Copy, PartialEq, Eq, PartialOrd, Ord)]
pub enum Error {
    Syntax,
    Resources,
    DuplicateName,
    Constraint,
    Domain,
    Range,
    Aborted,
    ReferentialIntegrity,
}

impl Error {
    pub fn words(self) -> &'static str {
        match self {
            Error::Syntax => "syntax error",
            Error::Resources => "resources exhausted",
            Error::DuplicateName => "duplicate uuid-name",
            Error::Constraint => "constraint violation",
            Error::Domain => "domain error",
            Error::Range => "range error",
            Error::Aborted => "aborted",
            Error::ReferentialIntegrity => "referential integrity violation",
        }
    }
}

/// What is wrong with an operation as written, apart from a syntax error, which comes first and so needs no waiting (E3).
#[derive(Default)]
pub struct Faults {
    first: Option<Error>,
}

impl Faults {
    pub fn unless(&mut self, good: bool, error: Error) {
        if !good {
            self.first = Some(self.first.map_or(error, |first| first.min(error)));
        }
    }

    /// The fault that comes first, if any.
    pub fn tell(self) -> Result<(), Error> {
        self.first.map_or(Ok(()), Err)
    }
}
