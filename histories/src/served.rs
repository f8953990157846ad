//! Lines and claims that the built program answers, and the first place at which its replies are not the plain program's.
use crate::certificates::Claim;
use crate::dialogue::Dialogue;
use std::fs::{self, File};
use std::io::{self, ErrorKind};
use std::path::{Path, PathBuf};
use std::process::{Command, ExitStatus, Stdio};
use std::{env, process};

/// A new folder for the files that the program reads. It is removed at the end.
pub struct Folder {
    path: PathBuf,
}

/// How a run of the program ended, and its replies, each with its line end.
struct Served {
    status: ExitStatus,
    replies: Vec<String>,
}

impl Folder {
    /// Makes it among the temporary files.
    pub fn new() -> io::Result<Folder> {
        let mut number = 0;
        loop {
            let path = env::temp_dir().join(format!("histories-{}-{number}", process::id()));
            match fs::create_dir(&path) {
                Err(error) if error.kind() == ErrorKind::AlreadyExists => number += 1,
                made => return made.map(|()| Folder { path }),
            }
        }
    }

    /// Serves the lines of a dialogue over its theory.
    fn serve(&self, program: &Path, dialogue: &Dialogue) -> io::Result<Served> {
        let (theory, lines) = (self.path.join("theory.ec"), self.path.join("lines"));
        fs::write(&theory, &dialogue.theory)?;
        fs::write(&lines, dialogue.lines(dialogue.exchanges.len()))?;
        let mut command = Command::new(program);
        command.arg("serve").arg(&theory).stdin(File::open(&lines)?);
        let output = command.stderr(Stdio::inherit()).output();
        let output = output.map_err(|error| told(program, &error))?;
        let replies = String::from_utf8_lossy(&output.stdout);
        let replies = replies.split_inclusive('\n').map(str::to_string).collect();
        Ok(Served {
            status: output.status,
            replies,
        })
    }

    /// What is not as it should be where the program answers a dialogue, if anything is.
    pub fn difference(&self, program: &Path, dialogue: &Dialogue) -> io::Result<Option<String>> {
        let Served { status, replies } = self.serve(program, dialogue)?;
        let wanted = dialogue.exchanges.iter().map(|exchange| &exchange.reply);
        let wanted: Vec<String> = wanted.map(|reply| format!("{reply}\n")).collect();
        let most = wanted.len().max(replies.len());
        let differs = |place: &usize| wanted.get(*place) != replies.get(*place);
        let place = (0..most).find(differs);
        if place.is_none() && status.success() {
            return Ok(None);
        }
        let place = place.unwrap_or(most);
        let (theory, lines) = (&dialogue.theory, dialogue.lines(place + 1));
        let (reply, expected) = (shown(replies.get(place)), shown(wanted.get(place)));
        Ok(Some(format!(
            "theory:\n{theory}lines:\n{lines}reply:    {reply}\nexpected: {expected}\nended:    {status}"
        )))
    }

    /// What the program writes of a claim, by these lines: with a certificate, what that comes to, and else a
    /// certificate. It is told with its status where this is not 0.
    fn certified(
        &self,
        program: &Path,
        claim: &Claim,
        lines: &[String],
        certificate: Option<&[String]>,
    ) -> io::Result<String> {
        let (theory, events) = (self.path.join("theory.ec"), self.path.join("events"));
        fs::write(&theory, &claim.theory)?;
        fs::write(&events, ended(lines))?;
        let mut command = Command::new(program);
        match certificate {
            None => command.arg("prove").arg(&theory).arg(&events),
            Some(lines) => {
                let file = self.path.join("certificate");
                fs::write(&file, ended(lines))?;
                command.arg("verify").arg(&theory).arg(&events).arg(&file)
            }
        };
        command
            .arg(claim.prop.to_string())
            .arg(claim.at.to_string());
        let output = command
            .stdin(Stdio::null())
            .stderr(Stdio::inherit())
            .output();
        let output = output.map_err(|error| told(program, &error))?;
        let text = String::from_utf8_lossy(&output.stdout).into_owned();
        Ok(match output.status.code() {
            Some(0) => text,
            _ => format!("{text}{}", output.status),
        })
    }

    /// What is not as it should be where the program decides a claim, if anything is. A certificate is written and
    /// verified, by all events and by those alone that it names, and another one is found to be bad.
    pub fn claim_difference(&self, program: &Path, claim: &Claim) -> io::Result<Option<String>> {
        let (proof, verdict) = match claim.holds {
            true => (ended(&claim.label), "yes\n".to_string()),
            false => ("none\n".to_string(), "no\n".to_string()),
        };
        let bad = format!("bad {}\n", claim.bad);
        let spoilt = claim.spoilt();
        let tries = [
            (&claim.lines, None, proof.clone()),
            (&claim.needed, None, proof),
            (&claim.lines, Some(claim.label.as_slice()), verdict),
            (&claim.lines, Some(spoilt.as_slice()), bad),
        ];
        for (lines, certificate, wanted) in tries {
            let said = self.certified(program, claim, lines, certificate)?;
            if said != wanted {
                let (theory, prop, at) = (&claim.theory, &claim.prop, claim.at);
                let (events, certificate) = (ended(lines), ended(certificate.unwrap_or(&[])));
                return Ok(Some(format!(
                    "theory:\n{theory}events:\n{events}claim:    {prop} {at}\ncertificate:\n{certificate}said:\n{said}\nexpected:\n{wanted}"
                )));
            }
        }
        Ok(None)
    }
}

/// Lines with their line ends.
fn ended(lines: &[String]) -> String {
    lines.iter().map(|line| format!("{line}\n")).collect()
}

/// A fault of running a program, with the program's name.
fn told(program: &Path, error: &io::Error) -> io::Error {
    io::Error::new(error.kind(), format!("{}: {error}", program.display()))
}

/// A reply as it is shown: none has a line end but at its end.
fn shown(reply: Option<&String>) -> &str {
    match reply {
        Some(reply) => reply.strip_suffix('\n').unwrap_or("one without a line end"),
        None => "none",
    }
}

impl Drop for Folder {
    fn drop(&mut self) {
        let _ = fs::remove_dir_all(&self.path);
    }
}
