// Stands in for what the original's crate root declares besides its modules. What can't be seen: all else there.

/// Equality and hash by what the named methods give.
macro_rules! impl_eq_hash {
    ($ty:ident; $($part:ident),+) => {
        impl PartialEq for $ty {
            fn eq(&self, other: &Self) -> bool {
                $(self.$part() == other.$part())&&+
            }
        }

        impl Eq for $ty {}

        impl std::hash::Hash for $ty {
            fn hash<H: std::hash::Hasher>(&self, state: &mut H) {
                $(std::hash::Hash::hash(&self.$part(), state);)+
            }
        }
    };
}

pub(crate) use impl_eq_hash;
pub(crate) use template_program::TemplateProgramWitness;
pub(crate) use witness::Arguments;
