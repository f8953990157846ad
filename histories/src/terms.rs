//! Terms and patterns, and the values of variables under which a pattern fits a term.
use std::cmp::Ordering;
use std::fmt;

/// An argument of a term. Numbers come before names, numbers go by value and names by bytes.
#[derive(Clone, Copy, PartialEq, Eq, PartialOrd, Ord)]
pub enum Value {
    Number(i64),
    Name(&'static str),
}

/// An argument of a pattern: a value, one of two variables, or `_`, which stands for anything.
#[derive(Clone, Copy)]
pub enum Place {
    Value(Value),
    X,
    Y,
    Any,
}

/// A name with its arguments.
#[derive(Clone, PartialEq, Eq)]
pub struct Named<A> {
    pub name: &'static str,
    pub args: Vec<A>,
}

/// What an event or a property is.
pub type Term = Named<Value>;

/// What a clause says of events or properties.
pub type Pattern = Named<Place>;

/// A name and how many arguments it has.
pub type Shape = (&'static str, usize);

/// The values of the variables that have one.
#[derive(Clone, Copy)]
pub struct Binding {
    x: Option<Value>,
    y: Option<Value>,
}

impl<A> Named<A> {
    /// Its name and how many arguments it has.
    pub fn shape(&self) -> Shape {
        (self.name, self.args.len())
    }
}

impl Binding {
    /// No variable has a value.
    pub const EMPTY: Binding = Binding { x: None, y: None };

    /// The value at a place, if it has one.
    fn known(self, place: Place) -> Option<Value> {
        match place {
            Place::Value(value) => Some(value),
            Place::X => self.x,
            Place::Y => self.y,
            Place::Any => None,
        }
    }

    /// The value at a place of a rule's head or conditions: each of their variables stands in the rule's event.
    pub fn value(self, place: Place) -> Value {
        self.known(place)
            .expect("each variable stands in the event")
    }

    /// The binding under which a place fits a value too.
    fn with(self, place: Place, value: Value) -> Option<Binding> {
        match (self.known(place), place) {
            (Some(known), _) => (known == value).then_some(self),
            (None, Place::X) => Some(Binding {
                x: Some(value),
                ..self
            }),
            (None, Place::Y) => Some(Binding {
                y: Some(value),
                ..self
            }),
            (None, _) => Some(self),
        }
    }

    /// The binding under which a pattern fits a term too.
    pub fn matching(self, pattern: &Pattern, term: &Term) -> Option<Binding> {
        if pattern.shape() != term.shape() {
            return None;
        }
        let mut places = pattern.args.iter().zip(&term.args);
        places.try_fold(self, |binding, (place, value)| binding.with(*place, *value))
    }

    /// The property of a rule's head or condition, with its variables replaced.
    pub fn filled(self, pattern: &Pattern) -> Term {
        Term {
            name: pattern.name,
            args: pattern
                .args
                .iter()
                .map(|place| self.value(*place))
                .collect(),
        }
    }
}

impl Ord for Term {
    /// By name, then by the number of arguments, then by the arguments.
    fn cmp(&self, other: &Term) -> Ordering {
        (self.shape(), &self.args).cmp(&(other.shape(), &other.args))
    }
}

impl PartialOrd for Term {
    fn partial_cmp(&self, other: &Term) -> Option<Ordering> {
        Some(self.cmp(other))
    }
}

impl fmt::Display for Value {
    fn fmt(&self, f: &mut fmt::Formatter<'_>) -> fmt::Result {
        match self {
            Value::Number(number) => write!(f, "{number}"),
            Value::Name(name) => f.write_str(name),
        }
    }
}

impl fmt::Display for Place {
    fn fmt(&self, f: &mut fmt::Formatter<'_>) -> fmt::Result {
        match self {
            Place::Value(value) => write!(f, "{value}"),
            Place::X => f.write_str("X"),
            Place::Y => f.write_str("Y"),
            Place::Any => f.write_str("_"),
        }
    }
}

impl<A: fmt::Display> fmt::Display for Named<A> {
    fn fmt(&self, f: &mut fmt::Formatter<'_>) -> fmt::Result {
        f.write_str(self.name)?;
        if self.args.is_empty() {
            return Ok(());
        }
        let args: Vec<String> = self.args.iter().map(A::to_string).collect();
        write!(f, "({})", args.join(","))
    }
}
