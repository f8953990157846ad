//! Random histories, answered by the program `ec` as it is built and by a plain one that derives each reply afresh from the
//! events. The two must give the same replies, and of random claims the same certificates.
//!
//!     histories PROGRAM [COUNT]
//!
//! PROGRAM is the built program, and COUNT is how many histories are tried. A difference is told, and ends it with status 1.
mod certificates;
mod changes;
mod dialogue;
mod drawn_commands;
mod drawn_theories;
mod draws;
mod events;
mod history;
mod queries;
mod relations;
mod served;
mod server;
mod terms;
mod theory;
mod times;

use certificates::Claim;
use dialogue::Dialogue;
use served::Folder;
use std::env;
use std::error::Error;
use std::ffi::OsString;
use std::num::NonZero;
use std::panic::resume_unwind;
use std::path::Path;
use std::process::ExitCode;
use std::thread;

/// How many histories are tried where no number is given.
const HISTORIES: u64 = 2000;

/// Tries the histories of these seeds. Answers how many lines they have.
fn try_some(
    program: &Path,
    seeds: impl Iterator<Item = u64>,
) -> Result<usize, Box<dyn Error + Send + Sync>> {
    let folder = Folder::new()?;
    let mut lines = 0;
    for seed in seeds {
        let dialogue = Dialogue::of(seed);
        if let Some(difference) = folder.difference(program, &dialogue)? {
            return Err(
                format!("the history of seed {seed} has other replies\n{difference}").into(),
            );
        }
        if let Some(difference) = folder.claim_difference(program, &Claim::of(seed))? {
            return Err(
                format!("the claim of seed {seed} has another certificate\n{difference}").into(),
            );
        }
        lines += dialogue.exchanges.len();
    }
    Ok(lines)
}

/// Tries the histories of the first seeds, as many at a time as there are processors. Answers how many lines they have.
fn try_all(program: &Path, count: u64) -> Result<usize, Box<dyn Error + Send + Sync>> {
    let workers = thread::available_parallelism().map_or(1, NonZero::get);
    thread::scope(|scope| {
        let tries: Vec<_> = (0..count.min(workers as u64))
            .map(|first| scope.spawn(move || try_some(program, (first..count).step_by(workers))))
            .collect();
        tries
            .into_iter()
            .map(|tried| tried.join().unwrap_or_else(|panic| resume_unwind(panic)))
            .sum()
    })
}

/// How many histories a word asks for.
fn count(word: &OsString) -> Option<u64> {
    word.to_str()?.parse().ok()
}

fn main() -> ExitCode {
    let words: Vec<OsString> = env::args_os().skip(1).collect();
    let asked = match words.as_slice() {
        [program] => Some((Path::new(program), HISTORIES)),
        [program, number] => count(number).map(|count| (Path::new(program), count)),
        _ => None,
    };
    let Some((program, count)) = asked else {
        eprintln!("usage: histories PROGRAM [COUNT]");
        return ExitCode::from(2);
    };
    match try_all(program, count) {
        Ok(lines) => {
            println!(
                "{count} random histories with {lines} lines have the replies of the plain program"
            );
            ExitCode::SUCCESS
        }
        Err(error) => {
            eprintln!("histories: {error}");
            ExitCode::FAILURE
        }
    }
}
