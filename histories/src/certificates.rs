//! Claims that a property holds at a time: the label that a certificate of one must be, derived afresh, and how it may be spoilt.
use crate::drawn_commands::command;
use crate::drawn_theories::{all_props, stretch, theory};
use crate::draws::Draws;
use crate::events::Event;
use crate::history::History;
use crate::server::Server;
use crate::terms::{Shape, Term};
use crate::theory::Theory;
use crate::times::Instant;
use std::collections::BTreeSet;

/// How many commands there are before the events of a claim.
const COMMANDS: usize = 25;

/// A claim about a list of events. The lines of its label and of its event files have no line ends.
pub struct Claim {
    /// The text of the theory.
    pub theory: String,
    pub prop: Term,
    pub at: Instant,
    pub holds: bool,
    pub label: Vec<String>,
    /// The lines of the event file, the last event first.
    pub lines: Vec<String>,
    /// Those of the events that the label has a line for.
    pub needed: Vec<String>,
    /// The line, from 1, at which the certificate is spoilt that `spoilt` tells.
    pub bad: usize,
}

impl Claim {
    /// That of a seed: a random property and time, by the events that random commands leave.
    pub fn of(seed: u64) -> Claim {
        let mut draws = Draws::new(seed);
        let theory = theory(&mut draws);
        let mut server = Server::new(&theory);
        for _ in 0..COMMANDS {
            let (sender, command) = command(&mut draws, &server);
            server.answer(sender, &command);
        }
        let prop = draws.pick(&all_props());
        let at = stretch(&mut draws, theory.time).0;
        Claim::about(&mut draws, &server.history(), prop, at)
    }

    /// That of a property and a time, by the events of a history.
    fn about(draws: &mut Draws, history: &History<'_>, prop: Term, at: Instant) -> Claim {
        let cone = cone(history.theory, prop.shape());
        let mut label = vec![format!("certificate {prop} {at}")];
        let mut needed = Vec::new();
        for event in &history.events {
            let bits = bits(history, &cone, event);
            if !bits.is_empty() {
                label.push(format!("{} {bits}", event.id));
                needed.insert(0, format!("assert {event}"));
            }
        }
        label.push(format!("end {}", needed.len()));
        let bad = 1 + draws.below(label.len() as u64) as usize;
        let events = history.events.iter().rev();
        Claim {
            theory: history.theory.to_string(),
            holds: history.holds(&prop, at),
            prop,
            at,
            label,
            lines: events.map(|event| format!("assert {event}")).collect(),
            needed,
            bad,
        }
    }

    /// The label with another end of the line that is to be bad.
    pub fn spoilt(&self) -> Vec<String> {
        let mut lines = self.label.clone();
        lines[self.bad - 1].pop();
        lines[self.bad - 1].push('x');
        lines
    }
}

/// The names with numbers of arguments that bear on one: those of the conditions of rules for them, and of what excludes them.
fn cone(theory: &Theory, shape: Shape) -> BTreeSet<Shape> {
    let mut cone = BTreeSet::from([shape]);
    loop {
        let size = cone.len();
        for rule in &theory.rules {
            if cone.contains(&rule.head.shape()) {
                cone.extend(rule.literals.iter().map(|literal| literal.prop.shape()));
            }
        }
        for (left, right) in &theory.exclusives {
            if cone.contains(&left.shape()) || cone.contains(&right.shape()) {
                cone.extend([left.shape(), right.shape()]);
            }
        }
        if cone.len() == size {
            return cone;
        }
    }
}

/// A `1` for each rule of the cone that an event meets and whose conditions hold, a `0` for each whose conditions do not.
fn bits(history: &History<'_>, cone: &BTreeSet<Shape>, event: &Event) -> String {
    let rules = history.theory.rules.iter();
    let inside = rules.filter(|rule| cone.contains(&rule.head.shape()));
    let bits = inside.filter_map(|rule| {
        let binding = rule.met_by(event)?;
        let active = history.is_active(rule, binding, event.at);
        Some(if active { '1' } else { '0' })
    });
    bits.collect()
}
