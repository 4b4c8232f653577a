// Stands in for types with aliases: the structure alone. What can't be seen: the aliases; only jets' signatures use them.

use super::{StructuralType, TypeConstructible, UIntType};
use crate::num::NonZeroPow2Usize;

#[derive(Clone, Debug, PartialEq, Eq, Hash)]
pub struct AliasedType(StructuralType);

/// No alias is built in.
#[derive(Clone, Debug, PartialEq, Eq, Hash)]
pub enum BuiltinAlias {}

impl From<UIntType> for AliasedType {
    fn from(width: UIntType) -> AliasedType {
        AliasedType(width.into())
    }
}

impl TypeConstructible for AliasedType {
    fn either(left: Self, right: Self) -> Self {
        AliasedType(StructuralType::either(left.0, right.0))
    }

    fn option(inner: Self) -> Self {
        AliasedType(StructuralType::option(inner.0))
    }

    fn boolean() -> Self {
        AliasedType(StructuralType::boolean())
    }

    fn tuple<I: IntoIterator<Item = Self>>(elements: I) -> Self {
        AliasedType(StructuralType::tuple(elements.into_iter().map(|e| e.0)))
    }

    fn array(element: Self, size: usize) -> Self {
        AliasedType(StructuralType::array(element.0, size))
    }

    fn list(element: Self, bound: NonZeroPow2Usize) -> Self {
        AliasedType(StructuralType::list(element.0, bound))
    }
}
