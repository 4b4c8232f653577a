// Stands in for the lexer. What can't be seen: the keywords; no book has any.

pub fn is_keyword(_: &str) -> bool {
    false
}
