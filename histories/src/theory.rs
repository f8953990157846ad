//! Theories: their text, the rules that an event meets, and what is declared of properties.
use crate::events::Event;
use crate::terms::{Binding, Pattern, Place, Shape, Term};
use crate::times::Time;
use std::fmt;

/// What a rule does to its property.
#[derive(Clone, Copy, PartialEq, Eq)]
pub enum Kind {
    Initiates,
    Terminates,
}

/// How two arguments are compared.
#[derive(Clone, Copy)]
pub enum Op {
    Same,
    Differ,
    Less,
    AtMost,
}

/// A comparison of two arguments.
pub struct Test {
    pub left: Place,
    pub op: Op,
    pub right: Place,
}

/// That a property is current, or that it is not.
pub struct Literal {
    pub positive: bool,
    pub prop: Pattern,
}

/// A rule. Its conditions are a test, if it has one, and literals.
pub struct Rule {
    pub kind: Kind,
    pub event: Pattern,
    pub head: Pattern,
    pub test: Option<Test>,
    pub literals: Vec<Literal>,
}

/// A theory. A strong declaration is a name with a number of arguments.
pub struct Theory {
    pub rules: Vec<Rule>,
    pub exclusives: Vec<(Pattern, Pattern)>,
    pub strongs: Vec<Shape>,
    pub initials: Vec<Term>,
    pub time: Time,
}

impl Test {
    /// Whether it holds under a binding.
    fn holds(&self, binding: Binding) -> bool {
        let (left, right) = (binding.value(self.left), binding.value(self.right));
        match self.op {
            Op::Same => left == right,
            Op::Differ => left != right,
            Op::Less => left < right,
            Op::AtMost => left <= right,
        }
    }
}

impl Rule {
    /// The binding under which an event meets the rule, if it does.
    pub fn met_by(&self, event: &Event) -> Option<Binding> {
        let binding = Binding::EMPTY.matching(&self.event, &event.term)?;
        match &self.test {
            Some(test) if !test.holds(binding) => None,
            _ => Some(binding),
        }
    }
}

impl Theory {
    /// Whether two properties differ and a declaration speaks of them, in one order or the other.
    pub fn are_exclusive(&self, one: &Term, other: &Term) -> bool {
        let speaks = |(left, right): &(Pattern, Pattern)| {
            fit_together(left, right, one, other) || fit_together(left, right, other, one)
        };
        one != other && self.exclusives.iter().any(speaks)
    }

    /// Whether a property is declared strong.
    pub fn is_strong(&self, prop: &Term) -> bool {
        self.strongs.contains(&prop.shape())
    }

    /// Whether a property is declared initial.
    pub fn is_initial(&self, prop: &Term) -> bool {
        self.initials.contains(prop)
    }
}

/// Whether two patterns fit two terms under one binding.
fn fit_together(left: &Pattern, right: &Pattern, one: &Term, other: &Term) -> bool {
    let binding = Binding::EMPTY.matching(left, one);
    binding
        .and_then(|binding| binding.matching(right, other))
        .is_some()
}

impl fmt::Display for Kind {
    fn fmt(&self, f: &mut fmt::Formatter<'_>) -> fmt::Result {
        f.write_str(match self {
            Kind::Initiates => "initiates",
            Kind::Terminates => "terminates",
        })
    }
}

impl fmt::Display for Op {
    fn fmt(&self, f: &mut fmt::Formatter<'_>) -> fmt::Result {
        f.write_str(match self {
            Op::Same => "=",
            Op::Differ => "!=",
            Op::Less => "<",
            Op::AtMost => "<=",
        })
    }
}

impl fmt::Display for Test {
    fn fmt(&self, f: &mut fmt::Formatter<'_>) -> fmt::Result {
        let Test { left, op, right } = self;
        write!(f, "{left} {op} {right}")
    }
}

impl fmt::Display for Literal {
    fn fmt(&self, f: &mut fmt::Formatter<'_>) -> fmt::Result {
        let sign = if self.positive { "" } else { "not " };
        write!(f, "{sign}{}", self.prop)
    }
}

impl fmt::Display for Rule {
    fn fmt(&self, f: &mut fmt::Formatter<'_>) -> fmt::Result {
        write!(f, "{} {} {}", self.kind, self.event, self.head)?;
        let tests = self.test.iter().map(Test::to_string);
        let conditions: Vec<String> = tests
            .chain(self.literals.iter().map(Literal::to_string))
            .collect();
        if !conditions.is_empty() {
            write!(f, " if {}", conditions.join(", "))?;
        }
        f.write_str(".")
    }
}

impl fmt::Display for Theory {
    fn fmt(&self, f: &mut fmt::Formatter<'_>) -> fmt::Result {
        for rule in &self.rules {
            writeln!(f, "{rule}")?;
        }
        for (left, right) in &self.exclusives {
            writeln!(f, "exclusive {left} {right}.")?;
        }
        for (name, count) in &self.strongs {
            writeln!(f, "strong {name}/{count}.")?;
        }
        for initial in &self.initials {
            writeln!(f, "initially {initial}.")?;
        }
        match self.time {
            Time::Tick => Ok(()),
            Time::Civil { .. } => writeln!(f, "time civil."),
        }
    }
}
