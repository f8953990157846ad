//! Random commands, drawn by what the plain program knows, so that most of them are accepted.
use crate::drawn_theories::event;
use crate::draws::Draws;
use crate::events::{present, Event, Update};
use crate::server::{Command, Sender, Server};

/// A random update. An event that is present is mostly retracted.
fn update(draws: &mut Draws, server: &Server<'_>) -> Update {
    let event = event(draws, server.time());
    let is_present = present(&server.events, event.id).is_some();
    if is_present != draws.one_in(8) {
        Update::Retract(event.id)
    } else {
        Update::Assert(event)
    }
}

/// A random update for the draft. What the draft has just retracted is mostly asserted again, as it was or otherwise.
fn update_in_draft(draws: &mut Draws, server: &Server<'_>) -> Update {
    match (server.just_retracted(), draws.below(4)) {
        (Some(same), 0) => Update::Assert(same.clone()),
        (Some(same), 1 | 2) => Update::Assert(Event {
            id: same.id,
            ..event(draws, server.time())
        }),
        _ => update(draws, server),
    }
}

/// A random update of one who has no draft.
fn plain_update(draws: &mut Draws, server: &Server<'_>) -> (Sender, Command) {
    let update = update(draws, server);
    (Sender::Plain, Command::Update(update))
}

/// A random command where the draft of session 1 has so many updates.
fn command_in_draft(draws: &mut Draws, server: &Server<'_>, count: usize) -> (Sender, Command) {
    let command = match draws.below(10) {
        0..=3 if count == 2 => Command::Commit,
        0..=3 if count > 2 => draws.pick(&[Command::Commit, Command::Abort]),
        0..=7 => Command::Update(update_in_draft(draws, server)),
        9 => draws.pick(&[Command::Begin, Command::Commit, Command::Abort]),
        _ => return plain_update(draws, server),
    };
    (Sender::Drafting, command)
}

/// A random command where session 1 has no draft.
fn command_without_draft(draws: &mut Draws, server: &Server<'_>) -> (Sender, Command) {
    let command = match draws.below(10) {
        0..=3 => Command::Begin,
        4 => Command::Update(update(draws, server)),
        9 => draws.pick(&[Command::Begin, Command::Commit, Command::Abort]),
        _ => return plain_update(draws, server),
    };
    (Sender::Drafting, command)
}

/// A random command and who sends it. The first events are mostly asserted one by one; only session 1 has drafts.
pub fn command(draws: &mut Draws, server: &Server<'_>) -> (Sender, Command) {
    if server.events.len() < 4 && !draws.one_in(3) {
        let event = event(draws, server.time());
        return (Sender::Plain, Command::Update(Update::Assert(event)));
    }
    match &server.draft {
        Some(draft) => command_in_draft(draws, server, draft.len()),
        None => command_without_draft(draws, server),
    }
}
