//! How two intervals relate, after Allen, told by their ends.
use crate::history::Span;

/// The words of the relations.
pub const WORDS: [&str; 13] = [
    "before",
    "meets",
    "overlaps",
    "starts",
    "during",
    "finishes",
    "equals",
    "after",
    "met_by",
    "overlapped_by",
    "started_by",
    "contains",
    "finished_by",
];

/// The begin and the end of an interval, where `-inf` and `inf` are below and above all times.
fn ends(span: &Span) -> (i128, i128) {
    let begin = span.begin.map_or(i128::MIN, |at| i128::from(at.number()));
    let end = span.end.map_or(i128::MAX, |at| i128::from(at.number()));
    (begin, end)
}

/// Whether the first interval stands in the relation of a word to the second.
pub fn stands_in(word: &str, left: &Span, right: &Span) -> bool {
    let ((a, b), (c, d)) = (ends(left), ends(right));
    match word {
        "before" => b < c,
        "meets" => b == c,
        "overlaps" => a < c && c < b && b < d,
        "starts" => a == c && b < d,
        "during" => c < a && b < d,
        "finishes" => c < a && b == d,
        "equals" => a == c && b == d,
        "after" => d < a,
        "met_by" => d == a,
        "overlapped_by" => c < a && a < d && d < b,
        "started_by" => a == c && d < b,
        "contains" => a < c && d < b,
        "finished_by" => a < c && b == d,
        _ => unreachable!("no relation is named {word}"),
    }
}
