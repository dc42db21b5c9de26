//! The command line.

use crate::clock::Clock;
use crate::filter::Filter;
use crate::given::{Given, Known};
use crate::help;
use crate::quoting;
use crate::rig::MANAGING_NODE;
use crate::words::Style;
use std::ffi::OsString;
use std::path::PathBuf;

/// The last number that a node may have; 255 is all of them.
const LAST_NODE: u8 = 254;

pub enum Command {
    Help(&'static str),
    Version,
    Check(Check),
    Consume(Consume),
    Replay(Replay),
    Pair(Pair),
}

/// A file's path, and how messages name it.
pub struct Named {
    pub path: PathBuf,
    pub shown: String,
}

pub struct Check {
    pub rig: Named,
    pub json: bool,
    pub explain: bool,
    /// Notes count as faults.
    pub strict: bool,
}

pub struct Consume {
    pub rig: Named,
    pub sender: u8,
    pub version: u8,
    pub ready: bool,
    pub payloads: Vec<Vec<u8>>,
    pub style: Style,
}

pub struct Replay {
    pub rig: Named,
    pub capture: Named,
    /// The console's own node: poll requests to others are not for it.
    pub node: Option<u8>,
    pub quiet: bool,
    /// A line of JSON for each frame, and one for the table.
    pub json: bool,
    pub filter: Filter,
    /// The clock on which the time of day is shown.
    pub clock: Option<Clock>,
    pub style: Style,
}

pub struct Pair {
    pub drive: Named,
    pub console: Named,
    /// The drive's node; none is the only sender of the console's rig.
    pub node: Option<u8>,
    pub style: Style,
}

/// The command that the arguments behind the program's name say.
pub fn parse(arguments: Vec<OsString>) -> Result<Command, String> {
    let mut arguments = arguments.into_iter();
    let first = match arguments.next() {
        Some(first) => first,
        None => {
            return Err(format!(
                "a command is missing: check, consume, replay or pair.\n{}",
                help::MORE
            ))
        }
    };
    let rest: Vec<OsString> = arguments.collect();
    match first.to_str() {
        Some("--help") | Some("-h") => Ok(Command::Help(help::ALL)),
        Some("help") => help_on(rest.first()),
        Some("--version") | Some("-V") => Ok(Command::Version),
        Some("check") => check(rest),
        Some("consume") => consume(rest),
        Some("replay") => replay(rest),
        Some("pair") => pair(rest),
        _ => Err(format!(
            "there is no command {}.\n{}",
            quoting::word(&first.to_string_lossy()),
            help::MORE
        )),
    }
}

fn help_on(command: Option<&OsString>) -> Result<Command, String> {
    match command.map(|command| command.to_string_lossy().into_owned()).as_deref() {
        None => Ok(Command::Help(help::ALL)),
        Some("check") => Ok(Command::Help(help::CHECK)),
        Some("consume") => Ok(Command::Help(help::CONSUME)),
        Some("replay") => Ok(Command::Help(help::REPLAY)),
        Some("pair") => Ok(Command::Help(help::PAIR)),
        Some(other) => {
            Err(format!("there is no command {}.\n{}", quoting::word(other), help::MORE))
        }
    }
}

fn check(arguments: Vec<OsString>) -> Result<Command, String> {
    // The check shows no decimals, and takes the mark that every command takes.
    let flags = &["--json", "--explain", "--strict", "--comma"];
    let known = Known { flags, settings: &[] };
    let mut given = Given::split("check", arguments, known)?;
    if given.help {
        return Ok(Command::Help(help::CHECK));
    }
    let rig = given.file("the rig file")?;
    given.no_more()?;
    let (json, explain, strict) =
        (given.has("--json"), given.has("--explain"), given.has("--strict"));
    Ok(Command::Check(Check { rig, json, explain, strict }))
}

fn consume(arguments: Vec<OsString>) -> Result<Command, String> {
    let flags = &["--not-ready", "--times", "--comma"];
    let known = Known { flags, settings: &["--from", "--version"] };
    let mut given = Given::split("consume", arguments, known)?;
    if given.help {
        return Ok(Command::Help(help::CONSUME));
    }
    let rig = given.file("the rig file")?;
    let sender = given.node("--from", MANAGING_NODE)?;
    let sender = sender
        .ok_or_else(|| given.wrong("--from is missing: the node that sends, as in --from 5"))?;
    let version = given.version()?;
    if given.words.is_empty() {
        return Err(given.wrong("a payload is missing, as in C40910270000"));
    }
    let payloads: Result<Vec<Vec<u8>>, String> =
        given.words.iter().map(|word| given.payload(word)).collect();
    let (ready, style) = (!given.has("--not-ready"), given.style());
    Ok(Command::Consume(Consume { rig, sender, version, ready, payloads: payloads?, style }))
}

fn replay(arguments: Vec<OsString>) -> Result<Command, String> {
    let known = Known {
        flags: &["--quiet", "--times", "--comma", "--changes", "--faults", "--json"],
        settings: &["--node", "--from", "--object", "--between", "--clock"],
    };
    let mut given = Given::split("replay", arguments, known)?;
    if given.help {
        return Ok(Command::Help(help::REPLAY));
    }
    let rig = given.file("the rig file")?;
    let capture = given.file("the capture")?;
    given.no_more()?;
    let clock = given.clock()?;
    let filter = Filter {
        objects: given.objects()?,
        sender: given.node("--from", MANAGING_NODE)?,
        changes: given.has("--changes"),
        faults: given.has("--faults"),
        between: given.between(clock)?,
    };
    let node = given.node("--node", LAST_NODE)?;
    let (quiet, json, style) = (given.has("--quiet"), given.has("--json"), given.style());
    Ok(Command::Replay(Replay { rig, capture, node, quiet, json, filter, clock, style }))
}

fn pair(arguments: Vec<OsString>) -> Result<Command, String> {
    let known = Known { flags: &["--times", "--comma"], settings: &["--node"] };
    let mut given = Given::split("pair", arguments, known)?;
    if given.help {
        return Ok(Command::Help(help::PAIR));
    }
    let drive = given.file("the drive's rig file")?;
    let console = given.file("the console's rig file")?;
    given.no_more()?;
    let node = given.node("--node", MANAGING_NODE)?;
    Ok(Command::Pair(Pair { drive, console, node, style: given.style() }))
}
