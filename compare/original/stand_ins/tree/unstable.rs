// Stands in for the gates of unstable features. What can't be seen: the gates; a book opens none.

macro_rules! impl_require_feature {
    ($($gate:tt)*) => {};
}

pub(crate) use impl_require_feature;
