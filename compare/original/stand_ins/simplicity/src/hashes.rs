//! Stands in for SHA-256: a digest that gives its last input away, so that the
//! log can tell one symbol from another. What can't be seen here: real roots.

/// Marks a digest, so that the one of zero differs from the all-zero root.
const MARK: u8 = 1;

pub trait HashEngine {
    fn input(&mut self, bytes: &[u8]);
}

pub mod sha256 {
    use super::{HashEngine, MARK};

    #[derive(Default)]
    pub struct Engine {
        last: [u8; 4],
    }

    impl HashEngine for Engine {
        fn input(&mut self, bytes: &[u8]) {
            self.last = bytes.last_chunk().copied().unwrap_or_default();
        }
    }

    pub struct Hash([u8; 32]);

    impl Hash {
        pub fn engine() -> Engine {
            Engine::default()
        }

        // The name is the one that the original calls.
        #[allow(clippy::self_named_constructors)]
        pub fn hash(bytes: &[u8]) -> Hash {
            let mut engine = Self::engine();
            engine.input(bytes);
            Self::from_engine(engine)
        }

        pub fn from_engine(engine: Engine) -> Hash {
            let mut digest = [0; 32];
            digest[0] = MARK;
            digest[28..].copy_from_slice(&engine.last);
            Hash(digest)
        }

        pub fn to_byte_array(self) -> [u8; 32] {
            self.0
        }
    }

    impl AsRef<[u8]> for Hash {
        fn as_ref(&self) -> &[u8] {
            &self.0
        }
    }
}

/// The last input of the digest, if it is one.
pub(crate) fn last_input(digest: &[u8; 32]) -> Option<[u8; 4]> {
    match digest {
        [MARK, .., a, b, c, d] => Some([*a, *b, *c, *d]),
        _ => None,
    }
}
