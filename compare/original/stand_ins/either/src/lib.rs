//! Stands in for the crate `either`: the enum alone. None of its methods is called by the lowering.

#[derive(Clone, Copy, Debug, PartialEq, Eq, Hash)]
pub enum Either<L, R> {
    Left(L),
    Right(R),
}
