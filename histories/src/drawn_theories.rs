//! Random theories and events. There are few names, values and instants, so that what is drawn often meets.
use crate::draws::Draws;
use crate::events::{Event, Identity};
use crate::terms::{Named, Pattern, Place, Shape, Term, Value};
use crate::theory::{Kind, Literal, Op, Rule, Test, Theory};
use crate::times::{Instant, Time, DAY};

/// The names of events and how many arguments each has.
const EVENTS: [Shape; 4] = [("e", 1), ("e", 2), ("e", 2), ("f", 0)];

/// The names of properties and how many arguments each has.
const PROPS: [Shape; 4] = [("p", 0), ("p", 1), ("q", 2), ("q", 2)];

/// The value -1.
const MINUS_ONE: Value = Value::Number(-1);

/// The value a.
const A: Value = Value::Name("a");

/// All values.
const VALUES: [Value; 2] = [MINUS_ONE, A];

/// The places of an event's or an exclusive declaration's pattern.
const PLACES: [Place; 7] = [
    Place::X,
    Place::X,
    Place::X,
    Place::Y,
    Place::Any,
    Place::Value(MINUS_ONE),
    Place::Value(A),
];

/// The identities of events, in the order of their bytes.
const IDENTITIES: [Identity; 10] = ["a", "a0", "a10", "a2", "aZ", "a_", "aa", "b", "bB", "ba"];

/// The instants of events.
const INSTANTS: [i64; 6] = [-1, 0, 1, 2, 3, 4];

/// Each instant, and what lies one before and one after it.
pub const TIMES: [i64; 8] = [-2, -1, 0, 1, 2, 3, 4, 5];

/// Civil times one second apart: the first and the last of all, and around the ends of two Februaries and of a year; and one day, one
/// month and one leap year apart.
const CIVILS: [Time; 8] = [
    civil(2, 1),
    civil(315_569_519_994, 1),
    civil(58 * DAY + 86_398, 1),
    civil(694_019 * DAY + 86_398, 1),
    civil(739_250 * DAY + 86_398, 1),
    civil(739_308 * DAY + 43_200, DAY),
    civil(739_250 * DAY + 3_599, 31 * DAY),
    civil(730_543 * DAY + 59, 366 * DAY),
];

/// Civil times that begin so many seconds behind the beginning of the year 0.
const fn civil(first: i64, step: i64) -> Time {
    Time::Civil { first, step }
}

/// A property of a name and its arguments.
fn prop(name: &'static str, args: &[Value]) -> Term {
    let args = args.to_vec();
    Term { name, args }
}

/// All properties that may be drawn.
pub fn all_props() -> Vec<Term> {
    let mut props = vec![prop("p", &[])];
    props.extend(VALUES.map(|only| prop("p", &[only])));
    for left in VALUES {
        props.extend(VALUES.map(|right| prop("q", &[left, right])));
    }
    props
}

/// A name of one of some shapes, with arguments of these.
fn named<A: Clone>(draws: &mut Draws, shapes: &[Shape], args: &[A]) -> Named<A> {
    let (name, count) = draws.pick(shapes);
    Named {
        name,
        args: (0..count).map(|_| draws.pick(args)).collect(),
    }
}

/// A place that an event pattern gives a value: mostly one of its variables.
fn given_place(draws: &mut Draws, event: &Pattern) -> Place {
    let place = match event.args.as_slice() {
        [] => Place::Any,
        [only] => *only,
        places => places[usize::from(!draws.one_in(2))],
    };
    match place {
        Place::X | Place::Y if !draws.one_in(6) => place,
        _ => Place::Value(draws.pick(&VALUES)),
    }
}

/// A property whose variables an event pattern gives a value.
fn given_prop(draws: &mut Draws, event: &Pattern) -> Pattern {
    let (name, count) = draws.pick(&PROPS);
    Named {
        name,
        args: (0..count).map(|_| given_place(draws, event)).collect(),
    }
}

/// A test of an event pattern's variables, of one rule in six.
fn test(draws: &mut Draws, event: &Pattern) -> Option<Test> {
    draws.one_in(6).then(|| Test {
        left: given_place(draws, event),
        op: draws.pick(&[Op::Same, Op::Differ, Op::Less, Op::AtMost, Op::AtMost]),
        right: given_place(draws, event),
    })
}

/// A literal whose variables an event pattern gives a value.
fn literal(draws: &mut Draws, event: &Pattern) -> Literal {
    Literal {
        positive: draws.one_in(3),
        prop: given_prop(draws, event),
    }
}

/// A rule with up to two literals.
fn rule(draws: &mut Draws) -> Rule {
    let event = named(draws, &EVENTS, &PLACES);
    let count = draws.pick(&[0, 0, 1, 1, 2, 2]);
    let literals = (0..count).map(|_| literal(draws, &event)).collect();
    Rule {
        kind: draws.pick(&[Kind::Initiates, Kind::Terminates]),
        head: given_prop(draws, &event),
        test: test(draws, &event),
        event,
        literals,
    }
}

/// As many things as one of some numbers says.
fn some<T>(draws: &mut Draws, counts: &[usize], draw: impl Fn(&mut Draws) -> T) -> Vec<T> {
    let count = draws.pick(counts);
    (0..count).map(|_| draw(draws)).collect()
}

/// An exclusive declaration.
fn exclusive(draws: &mut Draws) -> (Pattern, Pattern) {
    (named(draws, &PROPS, &PLACES), named(draws, &PROPS, &PLACES))
}

/// The time of a theory: civil in one of three.
fn time(draws: &mut Draws) -> Time {
    if draws.one_in(3) {
        draws.pick(&CIVILS)
    } else {
        Time::Tick
    }
}

/// A theory: some rules, up to three exclusive declarations, at most one strong one, up to two initial properties, and a time.
pub fn theory(draws: &mut Draws) -> Theory {
    Theory {
        rules: some(draws, &[8, 10, 12, 14], rule),
        exclusives: some(draws, &[0, 1, 2, 3], exclusive),
        strongs: some(draws, &[0, 1], |draws| draws.pick(&PROPS)),
        initials: some(draws, &[0, 0, 1, 2], |draws| named(draws, &PROPS, &VALUES)),
        time: time(draws),
    }
}

/// An event, be there one of its identity or not.
pub fn event(draws: &mut Draws, time: Time) -> Event {
    Event {
        at: time.instant(draws.pick(&INSTANTS)),
        id: draws.pick(&IDENTITIES),
        term: named(draws, &EVENTS, &VALUES),
    }
}

/// The beginning and the end of a stretch, mostly in this order.
pub fn stretch(draws: &mut Draws, time: Time) -> (Instant, Instant) {
    let from = time.instant(draws.pick(&TIMES));
    let until = time.instant(draws.pick(&TIMES));
    if until < from && !draws.one_in(4) {
        (until, from)
    } else {
        (from, until)
    }
}
