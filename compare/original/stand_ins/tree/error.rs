// Stands in for spans and diagnostics. What can't be seen: their texts, and any place but a record's number.

use simplicity::types;

use crate::str::Identifier;
use crate::types::ResolvedType;

/// The record that something was made from.
#[derive(Clone, Copy, Debug, PartialEq, Eq, Hash)]
pub struct Span(pub u16);

impl Span {
    pub fn to_slice(self, _: &str) -> Option<&str> {
        None
    }
}

#[derive(Debug)]
pub enum Error {
    UndefinedVariable { identifier: Identifier },
    VariableReuseInPattern { identifier: Identifier },
    ExpressionUnexpectedType { ty: ResolvedType },
}

impl From<types::Error> for Error {
    fn from(error: types::Error) -> Error {
        match error {}
    }
}

#[derive(Debug)]
pub struct Diagnostic {
    pub error: Box<Error>,
    pub span: Span,
}

pub trait WithSpan<Good> {
    fn with_span<S: AsRef<Span>>(self, place: &S) -> Result<Good, Diagnostic>;
}

impl<Good, Bad: Into<Error>> WithSpan<Good> for Result<Good, Bad> {
    fn with_span<S: AsRef<Span>>(self, place: &S) -> Result<Good, Diagnostic> {
        self.map_err(|error| Diagnostic {
            error: Box::new(error.into()),
            span: *place.as_ref(),
        })
    }
}
