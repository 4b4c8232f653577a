// Stands in for the parse tree: a match arm's pattern, where it has one. What can't be seen: the parser.

use crate::pattern::Pattern;

/// An arm as that of `None` or `true` has no pattern.
#[derive(Clone, Debug, PartialEq, Eq, Hash)]
pub struct MatchPattern(pub Option<Pattern>);

impl MatchPattern {
    pub fn as_pattern(&self) -> Option<&Pattern> {
        self.0.as_ref()
    }
}
