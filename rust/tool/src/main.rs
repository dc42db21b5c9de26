//! `loomfinch`: checks a rig's POWERLINK mappings, and shows what received payloads change in it.

// interrupt.rs alone declares two functions of C.
#![deny(unsafe_code)]

mod args;
mod broken;
mod capture;
mod check;
mod clock;
mod console;
mod consume;
mod drawing;
mod explain;
mod failure;
mod faults;
mod fields;
mod filter;
mod frame;
mod given;
mod help;
mod interrupt;
mod json;
mod notes;
mod pair;
mod player;
mod progress;
mod quoting;
mod reasons;
mod replay;
mod replay_json;
mod report;
mod requests;
mod rig;
mod sent;
mod table;
mod trouble;
mod words;

#[cfg(test)]
mod damage_tests;

use args::{Command, Named};
use console::Console;
use failure::{Failure, Status};
use rig::Rig;
use std::fs::File;
use std::io::{self, BufWriter, ErrorKind, Read, Write};
use std::process::ExitCode;

/// No rig needs more; what is larger was not meant to be one.
const MOST_RIG_BYTES: u64 = 4 << 20;

fn main() -> ExitCode {
    let mut out = BufWriter::new(io::stdout().lock());
    let done = args::parse(std::env::args_os().skip(1).collect())
        .map_err(Failure::Message)
        .and_then(|command| run(&command, &mut out));
    let flushed = out.flush();
    match done.and_then(|status| flushed.map(|()| status).map_err(Failure::Output)) {
        Ok(Status::Clean) => ExitCode::SUCCESS,
        Ok(Status::Faults) => ExitCode::from(1),
        Ok(Status::Nothing) => ExitCode::from(3),
        // Whoever read the output has read enough; what was not said may have been a fault.
        Err(Failure::Output(error)) if error.kind() == ErrorKind::BrokenPipe => ExitCode::from(2),
        Err(Failure::Output(error)) => {
            complain(&[format!("the output cannot be written: {error}")])
        }
        Err(Failure::Message(text)) => complain(&[text]),
        Err(Failure::Problems(texts)) => complain(&texts),
    }
}

fn complain(texts: &[String]) -> ExitCode {
    for text in texts {
        // There is no one left to tell if this fails.
        let _ = writeln!(io::stderr(), "loomfinch: {text}");
    }
    ExitCode::from(2)
}

fn run(command: &Command, out: &mut dyn Write) -> Result<Status, Failure> {
    match command {
        Command::Help(text) => out.write_all(text.as_bytes())?,
        Command::Version => writeln!(out, "loomfinch {}", env!("CARGO_PKG_VERSION"))?,
        Command::Check(options) => return check::run(options, &mut console(&options.rig)?, out),
        Command::Consume(options) => {
            return consume::run(options, &mut console(&options.rig)?, out)
        }
        Command::Replay(options) => return replay::run(options, &mut console(&options.rig)?, out),
        Command::Pair(options) => {
            return pair::run(options, rig(&options.drive)?, &mut console(&options.console)?, out)
        }
    }
    Ok(Status::Clean)
}

/// The console that a rig file describes.
fn console(file: &Named) -> Result<Console, Failure> {
    Console::new(rig(file)?).map_err(|problems| Failure::problems(&file.shown, &problems))
}

fn rig(file: &Named) -> Result<Rig, Failure> {
    let failed = |error: io::Error| Failure::Message(format!("{}: {}", file.shown, error));
    let mut text = Vec::new();
    File::open(&file.path)
        .map_err(failed)?
        .take(MOST_RIG_BYTES + 1)
        .read_to_end(&mut text)
        .map_err(failed)?;
    if text.len() as u64 > MOST_RIG_BYTES {
        let text =
            format!("{}: expected a rig file of at most {} bytes", file.shown, MOST_RIG_BYTES);
        return Err(Failure::Message(text));
    }
    rig::parse(&text).map_err(|problems| Failure::problems(&file.shown, &problems))
}
