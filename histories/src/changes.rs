//! What an update changed: the counts that `last` tells.
use crate::history::History;
use crate::terms::{Binding, Term};
use crate::theory::{Literal, Rule};
use crate::times::Instant;
use std::collections::BTreeSet;
use std::fmt;

/// What differs between two histories of one theory. `props` counts properties with other intervals, and the others count rules
/// that the events meet which both histories have: those that see a change, those that came to act, and those that ceased to.
#[derive(Clone, Copy, Default)]
pub struct Counts {
    seen: usize,
    on: usize,
    off: usize,
    props: usize,
}

/// Whether some literal of a rule reads a property that is current in one history and not in the other.
fn sees(old: &History<'_>, new: &History<'_>, rule: &Rule, binding: Binding, at: Instant) -> bool {
    let differs = |literal: &Literal| {
        let prop = binding.filled(&literal.prop);
        old.is_current(&prop, at) != new.is_current(&prop, at)
    };
    rule.literals.iter().any(differs)
}

impl Counts {
    /// What differs between an old history and a new one.
    pub fn between(old: &History<'_>, new: &History<'_>) -> Counts {
        let moves = |prop: &&&Term| old.intervals(prop) != new.intervals(prop);
        let props: BTreeSet<&Term> = old.props().union(&new.props()).copied().collect();
        let mut counts = Counts {
            props: props.iter().filter(moves).count(),
            ..Counts::default()
        };
        for event in old.events.iter().filter(|event| new.events.contains(event)) {
            for rule in &old.theory.rules {
                if let Some(binding) = rule.met_by(event) {
                    counts.add(old, new, rule, binding, event.at);
                }
            }
        }
        counts
    }

    /// Counts what differs of a rule that an event meets.
    fn add(
        &mut self,
        old: &History<'_>,
        new: &History<'_>,
        rule: &Rule,
        binding: Binding,
        at: Instant,
    ) {
        let was_active = old.is_active(rule, binding, at);
        let is_active = new.is_active(rule, binding, at);
        self.seen += usize::from(sees(old, new, rule, binding, at));
        self.on += usize::from(!was_active && is_active);
        self.off += usize::from(was_active && !is_active);
    }
}

impl fmt::Display for Counts {
    fn fmt(&self, f: &mut fmt::Formatter<'_>) -> fmt::Result {
        let Counts {
            seen,
            on,
            off,
            props,
        } = self;
        write!(f, "last seen {seen} on {on} off {off} props {props}")
    }
}
