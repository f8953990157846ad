//! What the plain program knows, and its replies to the lines that may change something.
use crate::changes::Counts;
use crate::events::{present, updated, Cut, Event, Update};
use crate::history::History;
use crate::theory::Theory;
use crate::times::Time;
use std::fmt;

/// A line that may change something, but for its prefix.
#[derive(Clone)]
pub enum Command {
    Update(Update),
    Begin,
    Commit,
    Abort,
}

/// Who sends a line: one who has no draft and writes no prefix, or session 1.
#[derive(Clone, Copy, PartialEq, Eq)]
pub enum Sender {
    Plain,
    Drafting,
}

/// The present events in order of time and identity, those after each number of accepted updates, what the last update changed, and the
/// draft of session 1 while it is open.
pub struct Server<'a> {
    theory: &'a Theory,
    pub events: Vec<Event>,
    /// The last of them are the present ones.
    past: Vec<Vec<Event>>,
    pub last: Counts,
    pub draft: Option<Vec<Update>>,
}

impl<'a> Server<'a> {
    /// Nothing happened yet.
    pub fn new(theory: &'a Theory) -> Server<'a> {
        Server {
            theory,
            events: Vec::new(),
            past: vec![Vec::new()],
            last: Counts::default(),
            draft: None,
        }
    }

    /// The time of the theory.
    pub fn time(&self) -> Time {
        self.theory.time
    }

    /// What follows from the present events, derived afresh.
    pub fn history(&self) -> History<'a> {
        History::of(self.theory, &self.events)
    }

    /// How many updates were accepted.
    pub fn accepted(&self) -> usize {
        self.past.len() - 1
    }

    /// What follows from the events after so many accepted updates, derived afresh, if there were so many.
    pub fn history_after(&self, count: usize) -> Option<History<'a>> {
        let events = self.past.get(count)?;
        Some(History::of(self.theory, events))
    }

    /// The present event that the last update of the draft retracts.
    pub fn just_retracted(&self) -> Option<&Event> {
        match self.draft.as_ref()?.last()? {
            Update::Retract(id) => present(&self.events, id),
            Update::Assert(_) => None,
        }
    }

    /// Makes a command. Answers the reply to it, but for its prefix.
    pub fn answer(&mut self, sender: Sender, command: &Command) -> String {
        match command {
            Command::Update(update) => self.answer_update(sender, update),
            Command::Begin if self.draft.is_some() => "refused in-draft".to_string(),
            Command::Begin => {
                self.draft = Some(Vec::new());
                "ok".to_string()
            }
            Command::Commit => self.answer_commit(),
            Command::Abort if self.draft.is_none() => "refused no-draft".to_string(),
            Command::Abort => {
                self.draft = None;
                "ok".to_string()
            }
        }
    }

    /// Makes an update, or holds it in the draft.
    fn answer_update(&mut self, sender: Sender, update: &Update) -> String {
        if let (Sender::Drafting, Some(draft)) = (sender, &mut self.draft) {
            draft.push(update.clone());
            return format!("drafted {}", draft.len());
        }
        match self.make(std::slice::from_ref(update)) {
            Ok(()) => "ok".to_string(),
            Err((_, cut)) => format!("refused {cut}"),
        }
    }

    /// Makes the updates of the draft, which stays open if one is refused.
    fn answer_commit(&mut self) -> String {
        let Some(draft) = self.draft.take() else {
            return "refused no-draft".to_string();
        };
        match self.make(&draft) {
            Ok(()) => "ok".to_string(),
            Err((place, cut)) => {
                self.draft = Some(draft);
                format!("refused commit {place} {cut}")
            }
        }
    }

    /// Makes all of some updates, or none, and then says which is refused for what.
    fn make(&mut self, updates: &[Update]) -> Result<(), (usize, Cut)> {
        let old = self.history();
        self.events = updated(&self.events, updates)?;
        self.past.push(self.events.clone());
        self.last = Counts::between(&old, &self.history());
        Ok(())
    }
}

impl Sender {
    /// What stands before each line and each reply.
    pub fn prefix(self) -> &'static str {
        match self {
            Sender::Plain => "",
            Sender::Drafting => "@1 ",
        }
    }
}

impl fmt::Display for Command {
    fn fmt(&self, f: &mut fmt::Formatter<'_>) -> fmt::Result {
        match self {
            Command::Update(update) => write!(f, "{update}"),
            Command::Begin => f.write_str("begin"),
            Command::Commit => f.write_str("commit"),
            Command::Abort => f.write_str("abort"),
        }
    }
}
