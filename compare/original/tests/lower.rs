//! What the original gives, on books small enough to be worked out by hand.

use original::{lower, HERE, REVISION_MATCHES};

/// A book from its text: records with `;` between them.
fn book(text: &str) -> Vec<u8> {
    let mut bytes = Vec::new();
    for record in text.split(';') {
        let mut words = record.split_whitespace();
        bytes.extend(words.next().expect("a mark").bytes());
        for word in words {
            let field: u16 = word.parse().expect("a field");
            bytes.extend(field.to_le_bytes());
        }
    }
    bytes
}

const LISTING: &str = "tu; ts 0 0; vu 0; vr 1 2; pi 7; ec 1 3; sa 4 5; ev 1 7; eb 1 1 6 7";

#[test]
fn an_answer_where_the_original_is_here() {
    assert_eq!(lower(&book(LISTING), false, 100).is_some(), HERE);
}

#[test]
fn a_checkout_is_of_the_revision_we_name() {
    assert_eq!(REVISION_MATCHES, HERE);
}

#[cfg(original_here)]
mod with_the_original {
    use original::{listing, lower, Answer};

    use super::{book, LISTING};

    fn answer(text: &str, symbols: bool) -> Answer {
        lower(&book(text), symbols, 1 << 20).expect("the original is here")
    }

    fn listed(text: &str, symbols: bool) -> String {
        match answer(text, symbols) {
            Answer::Nodes { nodes, .. } => listing(&nodes),
            other => panic!("{other:?}"),
        }
    }

    /// How many nodes there are, and how many more that the root does not reach.
    fn counts(text: &str) -> (usize, usize) {
        match answer(text, false) {
            Answer::Nodes { nodes, unreached } => (nodes.len() / 5, unreached),
            other => panic!("{other:?}"),
        }
    }

    /// A recipe over a body of one node, with two witnesses for its arguments:
    /// three nodes of arguments, the body, and the call's comp are beyond the recipe.
    fn recipe(call: &str, size: usize) -> (usize, usize) {
        let text = format!("tu; et 0 0; fn 0 2 1 0 2 0 1; ew 0 1; ew 0 2; {call} 0 2 {size} 3 4");
        let (nodes, unreached) = counts(&text);
        (nodes - 5, unreached)
    }

    #[test]
    fn the_listing() {
        let expected = "nodes 6\n0 scribe 3\n1 iden\n2 pair 0 1\n3 iden\n4 take 3\n5 comp 2 4\n";
        assert_eq!(listed(LISTING, false), expected);
        assert_eq!(listed(LISTING, true), expected);
    }

    #[test]
    fn list_folds() {
        for k in 1..=8 {
            assert_eq!(recipe("cq", 1 << k), (3 + 37 * (k - 1), 0));
        }
    }

    #[test]
    fn array_folds() {
        for n in (1_usize..=33).chain([127, 128, 255, 256]) {
            let top = n.ilog2() as usize;
            let ones = n.count_ones() as usize;
            // The original builds one power more than it uses, unless n is one.
            let unused = if ones == 1 { 0 } else { 12 };
            assert_eq!(recipe("cy", n), (12 * (top + ones - 1), unused));
        }
    }

    #[test]
    fn loops() {
        for w in [1, 2, 4, 8, 16] {
            assert_eq!(recipe("cw", w), (26 * w + 17 * (w - 1), 0));
        }
    }

    #[test]
    fn a_symbol_where_asked_for() {
        let panic = "tu; cp 0 9";
        assert_eq!(
            listed(panic, false),
            "nodes 3\n0 unit\n1 fail\n2 comp 0 1\n"
        );
        let with_symbol = "nodes 8\n0 unit\n1 fail\n2 unit\n3 injl 2\n4 pair 3 0\n5 drop 1\n\
            6 assertl 5 9\n7 comp 4 6\n";
        assert_eq!(listed(panic, true), with_symbol);
        assert_eq!(listed("tu; cp 0 0", true), listed(panic, false));
    }

    #[test]
    fn an_unwrap_hides_symbol_0() {
        let expected = "nodes 9\n0 witness 5 0\n1 iden\n2 unit\n3 pair 1 2\n4 iden\n5 take 4\n\
            6 assertr 0 5\n7 comp 3 6\n8 comp 0 7\n";
        assert_eq!(listed("tu; ew 0 5; cr 0 3 1", false), expected);
    }

    #[test]
    fn a_hash_of_two_widths() {
        let expected = "nodes 26\n0 witness 1 0\n1 witness 2 0\n2 pair 0 1\n3 unit\n4 jet 3\n\
            5 comp 3 4\n6 iden\n7 pair 5 6\n8 jet 4\n9 jet 9\n10 iden\n11 take 10\n12 iden\n\
            13 take 12\n14 drop 13\n15 iden\n16 drop 15\n17 drop 16\n18 pair 11 14\n\
            19 comp 18 8\n20 pair 19 17\n21 comp 20 9\n22 comp 7 21\n23 jet 10\n24 comp 22 23\n25 comp 2 24\n";
        let text = "tu; ew 0 1; ew 0 2; ch 0 0 2 8 1 256 2";
        assert_eq!(listed(text, false), expected);
    }

    #[test]
    fn an_undefined_variable() {
        let undefined = |record| Answer::Undefined { record };
        assert_eq!(answer("tu; ev 0 7", false), undefined(1));
        // A function sees its parameters only.
        let text = "tu; ev 0 7; fn 0 0 1; pi 7; et 0 0; sa 3 4; cf 0 2 0; eb 0 1 5 6";
        assert_eq!(answer(text, false), undefined(1));
    }

    #[test]
    fn books_that_come_to_an_end() {
        let most = |text: &str, most| lower(&book(text), false, most);
        assert!(matches!(most(LISTING, 8), Some(Answer::Nodes { .. })));
        assert_eq!(most(LISTING, 7), Some(Answer::TooMany));
        // A pattern of 2 to the 200 leaves, which no table of nodes shows.
        let mut wide = "tu; pn".to_string();
        for record in 1..=200 {
            wide += &format!("; pt 2 {record} {record}");
        }
        wide += "; et 0 0; sa 201 202; eb 0 1 203 65535";
        assert_eq!(most(&wide, 1 << 20), Some(Answer::TooMany));
    }
}
