//! The command `consume`: what given payloads change.

use crate::args::Consume;
use crate::console::{Console, Received};
use crate::failure::{Failure, Status};
use crate::report::{self, Told};
use crate::words::{self, Style};
use std::io::Write;

pub fn run(
    options: &Consume,
    console: &mut Console,
    out: &mut dyn Write,
) -> Result<Status, Failure> {
    let mut status = Status::Clean;
    for (k, payload) in options.payloads.iter().enumerate() {
        let (sender, version, ready) = (options.sender, options.version, options.ready);
        let told = give(console, Received { sender, version, ready, payload }, options.style);
        writeln!(
            out,
            "payload {}: {} from {}, version {}",
            k + 1,
            words::bytes(payload.len()),
            words::node(&console.rig, sender),
            words::version(version)
        )?;
        for line in &told.lines {
            writeln!(out, "  {}", line.text)?;
        }
        if !told.troubles.is_empty() {
            status = Status::Faults;
        }
    }
    if options.payloads.len() > 1 && options.payloads.iter().all(|payload| payload.len() == 1) {
        writeln!(
            out,
            "note: these were {} payloads of one byte each; quotes make one payload of them: 'C4 09 10'",
            options.payloads.len()
        )?;
    }
    Ok(status)
}

/// Gives a payload to the console, and tells what came of it.
pub fn give(console: &mut Console, received: Received, style: Style) -> Told {
    match console.consume(received) {
        Ok(consumed) => report::tell(&console.rig, &received, &consumed, style),
        Err(refusal) => Told::refused(format!("refused: {refusal}")),
    }
}
