//! Lists of events, and the updates that change them.
use crate::terms::Term;
use crate::times::Instant;
use std::fmt;

/// The identity of an event.
pub type Identity = &'static str;

/// Something that happened.
#[derive(Clone, PartialEq, Eq)]
pub struct Event {
    pub at: Instant,
    pub id: Identity,
    pub term: Term,
}

/// A change of the present events.
#[derive(Clone)]
pub enum Update {
    Assert(Event),
    Retract(Identity),
}

/// What an update is refused for.
pub enum Cut {
    Duplicate(Identity),
    Unknown(Identity),
}

/// The event of an identity, if there is one.
pub fn present(events: &[Event], id: Identity) -> Option<&Event> {
    events.iter().find(|event| event.id == id)
}

/// Makes an update, or says what it is refused for. The events stand in order of time, and then of identity.
fn make(events: &mut Vec<Event>, update: &Update) -> Result<(), Cut> {
    match update {
        Update::Assert(event) if present(events, event.id).is_some() => {
            Err(Cut::Duplicate(event.id))
        }
        Update::Assert(event) => {
            events.push(event.clone());
            events.sort_by_key(|event| (event.at, event.id));
            Ok(())
        }
        Update::Retract(id) if present(events, id).is_none() => Err(Cut::Unknown(id)),
        Update::Retract(id) => {
            events.retain(|event| event.id != *id);
            Ok(())
        }
    }
}

/// The events after some updates; or the place of the first update that is refused, and what it is refused for.
pub fn updated(events: &[Event], updates: &[Update]) -> Result<Vec<Event>, (usize, Cut)> {
    let mut events = events.to_vec();
    for (place, update) in (1..).zip(updates) {
        make(&mut events, update).map_err(|cut| (place, cut))?;
    }
    Ok(events)
}

impl fmt::Display for Event {
    fn fmt(&self, f: &mut fmt::Formatter<'_>) -> fmt::Result {
        let Event { at, id, term } = self;
        write!(f, "{id} {at} {term}")
    }
}

impl fmt::Display for Update {
    fn fmt(&self, f: &mut fmt::Formatter<'_>) -> fmt::Result {
        match self {
            Update::Assert(event) => write!(f, "assert {event}"),
            Update::Retract(id) => write!(f, "retract {id}"),
        }
    }
}

impl fmt::Display for Cut {
    fn fmt(&self, f: &mut fmt::Formatter<'_>) -> fmt::Result {
        match self {
            Cut::Duplicate(id) => write!(f, "duplicate {id}"),
            Cut::Unknown(id) => write!(f, "unknown {id}"),
        }
    }
}
