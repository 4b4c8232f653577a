// Stands in for resolved types: each carries its structure. What can't be seen: how the original works a structure out.

use std::sync::Arc;

use super::{
    EnumInfo, StructuralType, TypeConstructible, TypeDeconstructible, TypeInner, UIntType,
};
use crate::num::NonZeroPow2Usize;

/// A type as written, and its structure. The structure is made with the type,
/// part by part, since a book's types may be shared beyond counting.
#[derive(Clone, Debug, PartialEq, Eq, Hash)]
pub struct ResolvedType {
    inner: TypeInner<Arc<ResolvedType>>,
    structure: StructuralType,
}

impl ResolvedType {
    fn new(inner: TypeInner<Arc<ResolvedType>>, structure: StructuralType) -> ResolvedType {
        ResolvedType { inner, structure }
    }

    /// The same structure, said to be a list. A book declares the structure,
    /// the lowering asks for the bound alone.
    pub fn seen_as_list(self, bound: NonZeroPow2Usize) -> ResolvedType {
        let element = Arc::new(ResolvedType::unit());
        ResolvedType::new(TypeInner::List(element, bound), self.structure)
    }

    /// The same structure, said to be an enum. The lowering asks for the
    /// number of variants alone.
    pub fn seen_as_enum(self, info: EnumInfo) -> ResolvedType {
        ResolvedType::new(TypeInner::Enum(info), self.structure)
    }

    pub fn as_enum(&self) -> Option<&EnumInfo> {
        match &self.inner {
            TypeInner::Enum(info) => Some(info),
            _ => None,
        }
    }

    pub fn is_never(&self) -> bool {
        matches!(self.inner, TypeInner::Never)
    }
}

impl From<&ResolvedType> for StructuralType {
    fn from(ty: &ResolvedType) -> StructuralType {
        ty.structure.clone()
    }
}

impl From<UIntType> for ResolvedType {
    fn from(width: UIntType) -> ResolvedType {
        ResolvedType::new(TypeInner::UInt(width), width.into())
    }
}

impl TypeConstructible for ResolvedType {
    fn either(left: Self, right: Self) -> Self {
        let structure = StructuralType::either((&left).into(), (&right).into());
        Self::new(
            TypeInner::Either(Arc::new(left), Arc::new(right)),
            structure,
        )
    }

    fn option(inner: Self) -> Self {
        let structure = StructuralType::option((&inner).into());
        Self::new(TypeInner::Option(Arc::new(inner)), structure)
    }

    fn boolean() -> Self {
        Self::new(TypeInner::Boolean, StructuralType::boolean())
    }

    fn tuple<I: IntoIterator<Item = Self>>(elements: I) -> Self {
        let elements: Arc<[Arc<Self>]> = elements.into_iter().map(Arc::new).collect();
        let structure = StructuralType::tuple(elements.iter().map(|e| e.as_ref().into()));
        Self::new(TypeInner::Tuple(elements), structure)
    }

    fn array(element: Self, size: usize) -> Self {
        let structure = StructuralType::array((&element).into(), size);
        Self::new(TypeInner::Array(Arc::new(element), size), structure)
    }

    fn list(element: Self, bound: NonZeroPow2Usize) -> Self {
        let structure = StructuralType::list((&element).into(), bound);
        Self::new(TypeInner::List(Arc::new(element), bound), structure)
    }
}

impl TypeDeconstructible for ResolvedType {
    fn as_either(&self) -> Option<(&Self, &Self)> {
        match &self.inner {
            TypeInner::Either(left, right) => Some((left, right)),
            _ => None,
        }
    }

    fn as_option(&self) -> Option<&Self> {
        match &self.inner {
            TypeInner::Option(inner) => Some(inner),
            _ => None,
        }
    }

    fn is_boolean(&self) -> bool {
        matches!(self.inner, TypeInner::Boolean)
    }

    fn as_integer(&self) -> Option<UIntType> {
        match self.inner {
            TypeInner::UInt(width) => Some(width),
            _ => None,
        }
    }

    fn as_tuple(&self) -> Option<&[Arc<Self>]> {
        match &self.inner {
            TypeInner::Tuple(elements) => Some(elements),
            _ => None,
        }
    }

    fn as_array(&self) -> Option<(&Self, usize)> {
        match &self.inner {
            TypeInner::Array(element, size) => Some((element, *size)),
            _ => None,
        }
    }

    fn as_list(&self) -> Option<(&Self, NonZeroPow2Usize)> {
        match &self.inner {
            TypeInner::List(element, bound) => Some((element, *bound)),
            _ => None,
        }
    }
}
