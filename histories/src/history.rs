//! What follows from a list of events by a theory, derived afresh by the definitions: no cache, and no order of arrival.
use crate::events::{Event, Identity};
use crate::terms::{Binding, Term};
use crate::theory::{Kind, Literal, Rule, Theory};
use crate::times::Instant;
use std::collections::BTreeSet;

/// Where something begins: at an instant, or, for `None`, before all events. `None` comes before each instant.
pub type Begin = Option<Instant>;

/// What an event does by a rule whose conditions are met. Rules are numbered from 1.
pub struct Entry {
    pub at: Instant,
    pub id: Identity,
    pub rule: usize,
    pub kind: Kind,
    pub head: Term,
}

/// A begin of a property with its end, if it has one. It is an interval if it is not broken.
#[derive(PartialEq, Eq)]
pub struct Span {
    pub begin: Begin,
    pub end: Option<Instant>,
    pub is_broken: bool,
}

/// Events, in order of time and identity, and what they do: the active entries, in order of time, identity and rule.
pub struct History<'a> {
    pub theory: &'a Theory,
    pub events: Vec<Event>,
    active: Vec<Entry>,
}

impl Entry {
    /// Whether it does this to a property.
    pub fn does(&self, kind: Kind, prop: &Term) -> bool {
        self.kind == kind && self.head == *prop
    }
}

impl Span {
    /// Whether the property holds at a time by this span: after its begin, up to and with its end.
    pub fn covers(&self, at: Instant) -> bool {
        !self.is_broken && self.begin < Some(at) && reaches(self.end, at)
    }
}

/// Whether what has this end, or none, lasts to a time.
fn reaches(end: Option<Instant>, at: Instant) -> bool {
    match end {
        Some(end) => at <= end,
        None => true,
    }
}

impl<'a> History<'a> {
    /// What follows from events that stand in order. An entry reads what is current strictly before it, so it is enough to go
    /// forward.
    pub fn of(theory: &'a Theory, events: &[Event]) -> History<'a> {
        let mut history = History {
            theory,
            events: events.to_vec(),
            active: Vec::new(),
        };
        for event in events {
            let entries = history.entries(event);
            history.active.extend(entries);
        }
        history
    }

    /// What an event does by each rule that it meets and whose conditions are met.
    fn entries(&self, event: &Event) -> Vec<Entry> {
        let entry = |(number, rule)| self.entry(number, rule, event);
        (1..).zip(&self.theory.rules).filter_map(entry).collect()
    }

    /// What an event does by a rule.
    fn entry(&self, number: usize, rule: &Rule, event: &Event) -> Option<Entry> {
        let binding = rule.met_by(event)?;
        self.is_active(rule, binding, event.at).then(|| Entry {
            at: event.at,
            id: event.id,
            rule: number,
            kind: rule.kind,
            head: binding.filled(&rule.head),
        })
    }

    /// Whether each literal of a rule agrees with the currency of its property.
    pub fn is_active(&self, rule: &Rule, binding: Binding, at: Instant) -> bool {
        let agrees = |literal: &Literal| {
            self.is_current(&binding.filled(&literal.prop), at) == literal.positive
        };
        rule.literals.iter().all(agrees)
    }

    /// Whether a property is current at a time: something before it started the property, and nothing since then broke it. What
    /// happens at the time itself says nothing.
    pub fn is_current(&self, prop: &Term, at: Instant) -> bool {
        let lasts = |begin: Begin| reaches(self.next_break(prop, begin), at);
        let starts = |entry: &Entry| entry.at < at && entry.does(Kind::Initiates, prop);
        let mut entries = self.active.iter();
        self.theory.is_initial(prop) && lasts(None)
            || entries.any(|entry| starts(entry) && lasts(Some(entry.at)))
    }

    /// The least instant behind a begin at which a property has a break.
    fn next_break(&self, prop: &Term, begin: Begin) -> Option<Instant> {
        let is_next = |entry: &&Entry| begin < Some(entry.at) && self.breaks(entry, prop);
        self.active.iter().find(is_next).map(|entry| entry.at)
    }

    /// Whether an active entry breaks a property: it terminates the property, or initiates what excludes it, or initiates the
    /// property itself, where this is strong.
    fn breaks(&self, entry: &Entry, prop: &Term) -> bool {
        match entry.kind {
            Kind::Terminates => entry.head == *prop,
            Kind::Initiates if entry.head == *prop => self.theory.is_strong(prop),
            Kind::Initiates => self.theory.are_exclusive(prop, &entry.head),
        }
    }

    /// The active entries at a time, in order of identity and rule.
    fn active_at(&self, at: Instant) -> impl Iterator<Item = &Entry> {
        self.active.iter().filter(move |entry| entry.at == at)
    }

    /// The first entry at a time that does this to a property.
    pub fn first_of(&self, kind: Kind, prop: &Term, at: Instant) -> Option<&Entry> {
        self.active_at(at).find(|entry| entry.does(kind, prop))
    }

    /// The first entry at a time that breaks a property.
    pub fn first_break(&self, prop: &Term, at: Instant) -> Option<&Entry> {
        self.active_at(at).find(|entry| self.breaks(entry, prop))
    }

    /// The begins of a property with their ends, in order. The initiations of one instant make one begin.
    pub fn spans(&self, prop: &Term) -> Vec<Span> {
        let entries = self.active.iter().filter(|entry| self.begins(entry, prop));
        let mut begins: Vec<Begin> = entries.map(|entry| Some(entry.at)).collect();
        begins.dedup();
        if self.theory.is_initial(prop) {
            begins.insert(0, None);
        }
        let spans = begins.into_iter().map(|begin| self.span(prop, begin));
        spans.collect()
    }

    /// Whether an entry begins a property, which was not current or has a break there.
    fn begins(&self, entry: &Entry, prop: &Term) -> bool {
        entry.does(Kind::Initiates, prop)
            && (!self.is_current(prop, entry.at) || self.first_break(prop, entry.at).is_some())
    }

    /// A begin with its end, which is the next break. It is broken if nothing terminates the property there.
    fn span(&self, prop: &Term, begin: Begin) -> Span {
        let end = self.next_break(prop, begin);
        let is_broken = end.is_some_and(|at| self.first_of(Kind::Terminates, prop, at).is_none());
        Span {
            begin,
            end,
            is_broken,
        }
    }

    /// The intervals of a property, in order.
    pub fn intervals(&self, prop: &Term) -> Vec<Span> {
        let mut spans = self.spans(prop);
        spans.retain(|span| !span.is_broken);
        spans
    }

    /// The broken begins of a property, in order.
    pub fn broken(&self, prop: &Term) -> Vec<Span> {
        let mut spans = self.spans(prop);
        spans.retain(|span| span.is_broken);
        spans
    }

    /// Whether a property holds at a time.
    pub fn holds(&self, prop: &Term, at: Instant) -> bool {
        self.spans(prop).iter().any(|span| span.covers(at))
    }

    /// The properties that are initial or started by something, in order. No other property ever holds.
    pub fn props(&self) -> BTreeSet<&Term> {
        let entries = self.active.iter();
        let initiations = entries.filter(|entry| entry.kind == Kind::Initiates);
        let started = initiations.map(|entry| &entry.head);
        self.theory.initials.iter().chain(started).collect()
    }

    /// The instants at which two properties that exclude each other are initiated, in order.
    pub fn clashes(&self) -> BTreeSet<Instant> {
        let clashing = self.active.iter().filter(|entry| self.is_opposed(entry));
        clashing.map(|entry| entry.at).collect()
    }

    /// Whether an entry initiates something, and another at its time initiates what excludes that.
    fn is_opposed(&self, entry: &Entry) -> bool {
        let opposes = |other: &Entry| {
            other.kind == Kind::Initiates && self.theory.are_exclusive(&entry.head, &other.head)
        };
        entry.kind == Kind::Initiates && self.active_at(entry.at).any(opposes)
    }
}
