//! The command `replay`: what a network capture changes.

use crate::args::Replay;
use crate::capture::{Capture, Damage};
use crate::console::Console;
use crate::failure::{Failure, Status};
use crate::interrupt::{self, UntilInterrupt};
use crate::player::Player;
use crate::progress::Progress;
use crate::requests::Requests;
use std::fs::{File, Metadata};
use std::io::{self, BufReader, Read, Write};

pub fn run(
    options: &Replay,
    console: &mut Console,
    out: &mut dyn Write,
) -> Result<Status, Failure> {
    interrupt::watch();
    let input = open(options)?;
    let requests = requests(options, input.live)?;
    let damaged = |damage: Damage| {
        Failure::Message(format!(
            "{}: byte {}: {}",
            options.capture.shown, damage.offset, damage.text
        ))
    };
    let mut player = Player::new(options, console, requests);
    let mut capture = match Capture::open(input.reader) {
        Ok(capture) => capture,
        // An interrupt before the capture has begun: there is nothing to tell.
        Err(_) if interrupt::came() => return Ok(player.finish(Some(0), out)?),
        Err(damage) => return Err(damaged(damage)),
    };
    let mut progress = Progress::new(input.size, options.quiet);
    let ended = loop {
        match capture.next_packet() {
            Ok(Some(packet)) => player.packet(&packet, out)?,
            // An interrupt ends the input wherever it is.
            Ok(None) | Err(_) if interrupt::came() => break Ok(()),
            Ok(None) => break Ok(()),
            Err(damage) => break Err(damage),
        }
        if input.live {
            out.flush()?;
        }
        progress.at(capture.offset());
    };
    progress.finish();
    let interrupted = Some(capture.packets()).filter(|_| interrupt::came());
    let status = player.finish(interrupted, out)?;
    ended.map(|()| status).map_err(damaged)
}

/// A capture to read.
struct Input {
    reader: Box<dyn Read>,
    /// How many bytes it has, or 0 where that is not known.
    size: u64,
    /// May more come while it is read? It can then be read once only.
    live: bool,
}

fn open(options: &Replay) -> Result<Input, Failure> {
    if options.capture.shown == "-" {
        let reader = Box::new(UntilInterrupt(BufReader::new(io::stdin())));
        return Ok(Input { reader, size: 0, live: true });
    }
    let (file, metadata) = file(options)?;
    let reader = Box::new(UntilInterrupt(BufReader::with_capacity(1 << 16, file)));
    Ok(Input { reader, size: metadata.len(), live: !metadata.is_file() })
}

fn file(options: &Replay) -> Result<(File, Metadata), Failure> {
    let opened = File::open(&options.capture.path).and_then(|file| {
        let metadata = file.metadata()?;
        Ok((file, metadata))
    });
    opened.map_err(|error| Failure::Message(format!("{}: {}", options.capture.shown, error)))
}

/// The poll requests that are for the rig; a capture that is a file is read for it.
fn requests(options: &Replay, live: bool) -> Result<Requests, Failure> {
    match options.node {
        Some(node) => Ok(Requests::To(node)),
        None if live => Ok(Requests::ReadOnce),
        None => {
            let reader = BufReader::with_capacity(1 << 16, file(options)?.0);
            Ok(Requests::of_capture(Box::new(UntilInterrupt(reader))))
        }
    }
}
