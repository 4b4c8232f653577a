// Stands in for values: the number of the book's record. What can't be seen: their bits.

use crate::types::ResolvedType;

#[derive(Clone, Debug, PartialEq, Eq, Hash)]
pub struct Value(pub u16);

impl Value {
    pub fn reconstruct(value: &StructuralValue, _: &ResolvedType) -> Option<Value> {
        Some(Value(value.0 .0))
    }
}

#[derive(Clone, Debug, PartialEq, Eq, Hash)]
pub struct StructuralValue(simplicity::Value);

impl From<&Value> for StructuralValue {
    fn from(value: &Value) -> StructuralValue {
        StructuralValue(simplicity::Value(value.0))
    }
}

impl AsRef<simplicity::Value> for StructuralValue {
    fn as_ref(&self) -> &simplicity::Value {
        &self.0
    }
}
