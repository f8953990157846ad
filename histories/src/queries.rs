//! Lines that ask a history, and the replies to them.
use crate::history::{Entry, History, Span};
use crate::relations::stands_in;
use crate::terms::Term;
use crate::theory::Kind;
use crate::times::Instant;
use std::fmt;

/// A line that asks something of a history.
pub enum Query {
    Holds(Term, Instant),
    Through(Term, Instant, Instant),
    Intervals(Term),
    Broken(Term),
    At(Instant),
    Why(Term, Instant),
    Clashes,
    Events,
    Pairs(Term, &'static str, Term),
    Related(Term, Instant, &'static str, Term),
}

impl fmt::Display for Query {
    fn fmt(&self, f: &mut fmt::Formatter<'_>) -> fmt::Result {
        match self {
            Query::Holds(prop, at) => write!(f, "holds {prop} {at}"),
            Query::Through(prop, from, until) => write!(f, "through {prop} {from} {until}"),
            Query::Intervals(prop) => write!(f, "intervals {prop}"),
            Query::Broken(prop) => write!(f, "broken {prop}"),
            Query::At(at) => write!(f, "at {at}"),
            Query::Why(prop, at) => write!(f, "why {prop} {at}"),
            Query::Clashes => f.write_str("clashes"),
            Query::Events => f.write_str("events"),
            Query::Pairs(left, word, right) => write!(f, "pairs {left} {word} {right}"),
            Query::Related(left, at, word, right) => {
                write!(f, "related {left} {at} {word} {right}")
            }
        }
    }
}

impl Query {
    /// Whether it can be asked of a list of the past too.
    pub fn is_of_one_list(&self) -> bool {
        !matches!(self, Query::Pairs(..) | Query::Related(..))
    }

    /// Whether it asks about a stretch whose end comes before its beginning.
    pub fn is_backwards(&self) -> bool {
        matches!(self, Query::Through(_, from, until) if until < from)
    }

    /// The reply by a history.
    pub fn reply(&self, history: &History<'_>) -> String {
        match self {
            Query::Holds(prop, at) => yes_or_no(history.holds(prop, *at)),
            Query::Through(_, from, until) if until < from => "refused order".to_string(),
            Query::Through(prop, from, until) => {
                yes_or_no(from.up_to(*until).all(|at| history.holds(prop, at)))
            }
            Query::Intervals(prop) => list(history.intervals(prop).iter().map(interval)),
            Query::Broken(prop) => list(history.broken(prop).iter().map(broken)),
            Query::At(at) => {
                let props = history.props().into_iter();
                list(props.filter(|prop| history.holds(prop, *at)))
            }
            Query::Why(prop, at) => reason(history, prop, *at),
            Query::Clashes => list(history.clashes()),
            Query::Events => list(&history.events),
            Query::Pairs(left, word, right) => pairs(history, left, word, right),
            Query::Related(left, at, word, right) => related(history, left, *at, word, right),
        }
    }
}

/// The reply whether something is so.
fn yes_or_no(is_so: bool) -> String {
    if is_so { "yes" } else { "no" }.to_string()
}

/// How many things there are, and each behind a blank.
fn list<T: fmt::Display>(things: impl IntoIterator<Item = T>) -> String {
    let things = things.into_iter();
    let texts: Vec<String> = things.map(|thing| format!(" {thing}")).collect();
    format!("{}{}", texts.len(), texts.concat())
}

/// An instant, or the word for there being none.
fn instant(at: Option<Instant>, none: &str) -> String {
    at.map_or(none.to_string(), |at| at.to_string())
}

/// The begin and the end of a span, with a text between them.
fn bounds(span: &Span, between: &str) -> String {
    let (begin, end) = (instant(span.begin, "-inf"), instant(span.end, "inf"));
    format!("{begin}{between}{end}")
}

/// An interval.
fn interval(span: &Span) -> String {
    let close = if span.end.is_some() { "]" } else { ")" };
    format!("({}{close}", bounds(span, ","))
}

/// The intervals of two properties that stand in a relation, by the first and then by the second. Those of a random history are few.
fn pairs(history: &History<'_>, left: &Term, word: &str, right: &Term) -> String {
    let (lefts, rights) = (history.intervals(left), history.intervals(right));
    let both = lefts
        .iter()
        .flat_map(|i| rights.iter().map(move |j| (i, j)));
    let those = both.filter(|(i, j)| stands_in(word, i, j));
    list(those.map(|(i, j)| format!("{} {}", interval(i), interval(j))))
}

/// The intervals of a property to which that of another one at a time stands in a relation.
fn related(history: &History<'_>, left: &Term, at: Instant, word: &str, right: &Term) -> String {
    let lefts = history.intervals(left);
    match lefts.iter().find(|span| span.covers(at)) {
        None => "none".to_string(),
        Some(i) => {
            let rights = history.intervals(right);
            list(
                rights
                    .iter()
                    .filter(|j| stands_in(word, i, j))
                    .map(interval),
            )
        }
    }
}

/// A broken begin.
fn broken(span: &Span) -> String {
    bounds(span, " ")
}

/// A word and a cause behind it, or nothing where there is none.
fn cause(word: &str, entry: Option<&Entry>) -> String {
    match entry {
        Some(entry) => format!(" {word} {} rule {}", entry.id, entry.rule),
        None => String::new(),
    }
}

/// The reason why a property holds at a time, or why it does not, by its last begin before that.
fn reason(history: &History<'_>, prop: &Term, at: Instant) -> String {
    let spans = history.spans(prop);
    let Some(span) = spans.iter().rfind(|span| span.begin < Some(at)) else {
        return "no never".to_string();
    };
    let bounds = bounds(span, " ");
    match span.end {
        Some(end) if span.is_broken => {
            let by = cause("by", history.first_break(prop, end));
            format!("no broken {bounds}{by}")
        }
        Some(end) if end < at => {
            let by = cause("by", history.first_of(Kind::Terminates, prop, end));
            format!("no ended {bounds}{by}")
        }
        _ => format!("yes {bounds}{}", causes(history, prop, span)),
    }
}

/// What caused the begin of a span, and its end, if it has one.
fn causes(history: &History<'_>, prop: &Term, span: &Span) -> String {
    let origin = match span.begin {
        Some(at) => cause("by", history.first_of(Kind::Initiates, prop, at)),
        None => " initially".to_string(),
    };
    let until = match span.end {
        Some(at) => cause("until", history.first_of(Kind::Terminates, prop, at)),
        None => String::new(),
    };
    format!("{origin}{until}")
}
