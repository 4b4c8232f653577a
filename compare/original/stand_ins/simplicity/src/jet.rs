//! Stands in for the jets: the eleven that a book can come to. What can't be
//! seen here: the other jets, and what a jet takes, gives and costs.

use std::any::Any;
use std::hash::Hasher;

/// A jet's type. Only the absent analysis of calls asks for it.
pub struct TypeName(());

impl TypeName {
    pub fn to_bit_width(&self) -> usize {
        unreachable!("the lowering asks no jet for its widths")
    }
}

pub trait Jet {
    fn as_any(&self) -> &dyn Any;
    /// The jet's number in a node.
    fn number(&self) -> u16;

    fn source_ty(&self) -> TypeName {
        TypeName(())
    }

    fn target_ty(&self) -> TypeName {
        TypeName(())
    }
}

pub trait DynJet {
    fn dyn_eq(&self, other: &dyn Jet) -> bool;
    fn dyn_hash(&self, state: &mut dyn Hasher);
}

impl<J: Jet> DynJet for J {
    fn dyn_eq(&self, other: &dyn Jet) -> bool {
        self.number() == other.number()
    }

    fn dyn_hash(&self, state: &mut dyn Hasher) {
        state.write_u16(self.number());
    }
}

/// The jets in the order of their numbers.
#[derive(Clone, Copy, Debug, PartialEq, Eq)]
pub enum Core {
    Verify,
    Eq8,
    Add8,
    Sha256Ctx8Init,
    Sha256Ctx8Add1,
    Sha256Ctx8Add2,
    Sha256Ctx8Add4,
    Sha256Ctx8Add8,
    Sha256Ctx8Add16,
    Sha256Ctx8Add32,
    Sha256Ctx8Finalize,
}

/// Both sets have these eleven, so one enum serves.
pub type Elements = Core;

#[derive(Debug)]
pub struct UnknownJet;

impl Core {
    /// The three jets that a book calls by number; the others come through the hinter.
    pub fn parse(name: &str) -> Result<Core, UnknownJet> {
        match name {
            "verify" => Ok(Core::Verify),
            "eq_8" => Ok(Core::Eq8),
            "add_8" => Ok(Core::Add8),
            _ => Err(UnknownJet),
        }
    }
}

impl Jet for Core {
    fn as_any(&self) -> &dyn Any {
        self
    }

    fn number(&self) -> u16 {
        *self as u16
    }
}
