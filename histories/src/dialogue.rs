//! The random history of a seed: a theory, and lines with the replies of the plain program. After each command all that can be
//! asked is asked.
use crate::drawn_commands::command;
use crate::drawn_theories::{all_props, stretch, theory, TIMES};
use crate::draws::Draws;
use crate::queries::Query;
use crate::relations::WORDS;
use crate::server::Server;
use crate::times::Instant;

/// How many commands a history has.
const COMMANDS: usize = 25;

/// A line and the reply that it should have.
pub struct Exchange {
    pub line: String,
    pub reply: String,
}

/// The text of a theory, and lines that are served over it.
pub struct Dialogue {
    pub theory: String,
    pub exchanges: Vec<Exchange>,
}

impl Dialogue {
    /// That of a seed: random commands, behind each of them all questions by one random stretch, about the present and about a random
    /// list of the past, and at the end about the present by stretches from each time.
    pub fn of(seed: u64) -> Dialogue {
        let mut draws = Draws::new(seed);
        let theory = theory(&mut draws);
        let mut dialogue = Dialogue {
            theory: theory.to_string(),
            exchanges: Vec::new(),
        };
        let mut server = Server::new(&theory);
        for _ in 0..COMMANDS {
            dialogue.add_command(&mut draws, &mut server);
            let stretches = [stretch(&mut draws, theory.time)];
            dialogue.ask_all(&server, &stretches);
            dialogue.ask_past(&mut draws, &server, &stretches);
        }
        let from = |number| theory.time.instant(number);
        let stretches = TIMES.map(|number| (from(number), stretch(&mut draws, theory.time).1));
        dialogue.ask_all(&server, &stretches);
        dialogue
    }

    /// The first lines, as many as are asked for or as there are, each with its line end.
    pub fn lines(&self, count: usize) -> String {
        let lines = self.exchanges.iter().map(|exchange| &exchange.line);
        lines.take(count).map(|line| format!("{line}\n")).collect()
    }

    /// Adds a line and its reply.
    fn add(&mut self, line: String, reply: String) {
        self.exchanges.push(Exchange { line, reply });
    }

    /// Adds a random command.
    fn add_command(&mut self, draws: &mut Draws, server: &mut Server<'_>) {
        let (sender, command) = command(draws, server);
        let prefix = sender.prefix();
        let reply = server.answer(sender, &command);
        self.add(format!("{prefix}{command}"), format!("{prefix}{reply}"));
    }

    /// Asks all that can be asked: each property for its intervals and broken begins and by some stretches, which properties hold at
    /// each time, the clashes, the events, and what the last update changed.
    fn ask_all(&mut self, server: &Server<'_>, stretches: &[(Instant, Instant)]) {
        let history = server.history();
        for query in queries(server, stretches) {
            self.add(query.to_string(), query.reply(&history));
        }
        self.add("last".to_string(), server.last.to_string());
    }

    /// Asks all that can be asked of one list about the events after a random number of accepted updates, which may be one too great.
    fn ask_past(
        &mut self,
        draws: &mut Draws,
        server: &Server<'_>,
        stretches: &[(Instant, Instant)],
    ) {
        let count = draws.below(server.accepted() as u64 + 2) as usize;
        let history = server.history_after(count);
        for query in queries(server, stretches) {
            if query.is_of_one_list() {
                let reply = match &history {
                    Some(history) => query.reply(history),
                    None if query.is_backwards() => "refused order".to_string(),
                    None => format!("refused future {}", server.accepted()),
                };
                self.add(format!("asof {count} {query}"), reply);
            }
        }
    }
}

/// All questions about a history by some stretches.
fn queries(server: &Server<'_>, stretches: &[(Instant, Instant)]) -> Vec<Query> {
    let mut queries = Vec::new();
    for prop in all_props() {
        queries.push(Query::Intervals(prop.clone()));
        queries.push(Query::Broken(prop.clone()));
        for (from, until) in stretches {
            queries.push(Query::Holds(prop.clone(), *from));
            queries.push(Query::Why(prop.clone(), *from));
            queries.push(Query::Through(prop.clone(), *from, *until));
        }
    }
    queries.extend(comparisons(stretches));
    queries.extend(TIMES.map(|number| Query::At(server.time().instant(number))));
    queries.push(Query::Clashes);
    queries.push(Query::Events);
    queries
}

/// Each property compared with each, by a relation that differs from one to the next and from time to time.
fn comparisons(stretches: &[(Instant, Instant)]) -> Vec<Query> {
    let mut queries = Vec::new();
    for (from, until) in stretches {
        let mut turn = (from.number() + until.number()).unsigned_abs() as usize;
        for left in all_props() {
            for right in all_props() {
                let word = WORDS[turn % WORDS.len()];
                queries.push(Query::Pairs(left.clone(), word, right.clone()));
                queries.push(Query::Related(left.clone(), *from, word, right));
                turn += 1;
            }
        }
    }
    queries
}
