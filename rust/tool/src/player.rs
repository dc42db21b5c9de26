//! A capture's packets given to the console one after another, and told.

use crate::args::Replay;
use crate::capture::Packet;
use crate::console::{Console, Received};
use crate::consume::give;
use crate::failure::Status;
use crate::frame::{self, Frame, Poll};
use crate::replay_json;
use crate::report::Told;
use crate::requests::{self, Requests};
use crate::table::{Other, Table};
use crate::words;
use std::collections::BTreeSet;
use std::io::{self, Write};

pub struct Player<'a> {
    options: &'a Replay,
    console: &'a mut Console,
    table: Table,
    requests: Requests,
    /// When the first packet was captured.
    first: Option<i128>,
    /// The nodes that poll requests were addressed to.
    asked: BTreeSet<u8>,
    /// Was a frame told?
    told: bool,
    passed: Passed,
}

/// The frames that left a value outside its range.
#[derive(Default)]
struct Passed {
    frames: u64,
    /// The number of the first one's packet, and what is to be said of it.
    first: Option<(u64, String)>,
}

impl Passed {
    fn count(&mut self, packet: u64, told: &Told) {
        if let Some(text) = told.passed.first() {
            self.frames += 1;
            self.first.get_or_insert_with(|| (packet, text.clone()));
        }
    }

    fn note(&self) -> Option<String> {
        let (packet, text) = self.first.as_ref()?;
        let frames = words::counted(self.frames as usize, "frame");
        Some(format!("{frames} left a value outside its range, first No. {packet}: {text}"))
    }
}

/// A poll frame as it is told.
pub struct Head<'a> {
    pub request: bool,
    pub sender: Option<u8>,
    /// What was read of it, where it could be consumed.
    pub poll: Option<&'a Poll<'a>>,
}

impl Head<'_> {
    pub fn name(&self) -> &'static str {
        if self.request {
            "PReq"
        } else {
            "PRes"
        }
    }
}

/// When a packet came, in words.
pub struct When {
    /// Nanoseconds since the first packet.
    pub after: Option<i128>,
    /// The time of day.
    pub clock: Option<String>,
}

impl<'a> Player<'a> {
    pub fn new(options: &'a Replay, console: &'a mut Console, requests: Requests) -> Player<'a> {
        let (table, first, asked) = (Table::default(), None, BTreeSet::new());
        let passed = Passed::default();
        Player { options, console, table, requests, first, asked, told: false, passed }
    }

    pub fn packet(&mut self, packet: &Packet, out: &mut dyn Write) -> io::Result<()> {
        self.first = self.first.or(packet.time);
        let frame = frame::dissect(packet.link, &packet.bytes);
        if let Some(why) = self.left_out(&frame) {
            return self.count(Other::LeftOut(why));
        }
        match frame {
            Frame::Poll(poll) => self.poll(packet, &poll, out),
            Frame::Cut { request, sender, said, there, .. } => {
                let why = cut(packet, said, there);
                self.table.damaged(sender, packet.number, &why);
                self.tell(packet, &Head { request, sender, poll: None }, &Told::damaged(why), out)
            }
            Frame::Message(kind) => self.count(Other::Frame(frame::message_name(kind))),
            Frame::Foreign(ether_type) => {
                self.count(Other::Frame(format!("EtherType {ether_type:04X}h")))
            }
            Frame::Llc => self.count(Other::Frame("LLC".to_string())),
            Frame::Runt => self.count(Other::Frame("too short for a frame".to_string())),
            Frame::OtherLink(number) => self.count(Other::Link(number)),
        }
    }

    fn count(&mut self, other: Other) -> io::Result<()> {
        self.table.other(other);
        Ok(())
    }

    /// Why a poll frame is not for the rig: a request to another node, or the rig's own response.
    fn left_out(&mut self, frame: &Frame) -> Option<String> {
        let (request, sender) = match frame {
            Frame::Poll(poll) => (poll.request, Some(poll.sender)),
            Frame::Cut { request, sender, .. } => (*request, *sender),
            _ => return None,
        };
        if !request {
            let own = |node: &u8| sender == Some(*node);
            return self.options.node.filter(own).map(|node| format!("PRes of node {node} itself"));
        }
        let destination = requests::destination(frame);
        self.asked.extend(destination);
        match self.requests {
            requests if requests.take(destination) => None,
            Requests::To(_) => Some("PReq to other nodes".to_string()),
            _ => Some("PReq".to_string()),
        }
    }

    fn poll(&mut self, packet: &Packet, poll: &Poll, out: &mut dyn Write) -> io::Result<()> {
        let Poll { request, sender, version, ready, payload, .. } = *poll;
        let received = Received { sender, version, ready, payload };
        let told = give(self.console, received, self.options.style);
        self.table.told(sender, packet.number, ready, &told);
        self.passed.count(packet.number, &told);
        self.tell(packet, &Head { request, sender: Some(sender), poll: Some(poll) }, &told, out)
    }

    /// Tells a frame that the wishes fit.
    fn tell(
        &mut self,
        packet: &Packet,
        head: &Head,
        told: &Told,
        out: &mut dyn Write,
    ) -> io::Result<()> {
        let filter = &self.options.filter;
        if self.options.quiet || !filter.shows(head.sender, packet.time, told) {
            return Ok(());
        }
        self.told = true;
        let (when, lines) = (self.when(packet), filter.lines(told));
        if self.options.json {
            let json =
                replay_json::frame(&self.console.rig, packet.number, &when, head, told, &lines);
            return writeln!(out, "{}", json.on_one_line());
        }
        let (when, head) = (self.when_words(&when), self.head_words(head));
        writeln!(out, "No. {}{}  {}", packet.number, when, head)?;
        lines.iter().try_for_each(|line| writeln!(out, "    {}", line.text))
    }

    fn head_words(&self, head: &Head) -> String {
        let rig = &self.console.rig;
        let from = head.sender.map_or("an unknown node".to_string(), |node| words::node(rig, node));
        let start = format!("{} from {}", head.name(), from);
        let poll = match head.poll {
            Some(poll) => poll,
            None => return start,
        };
        let state =
            poll.state.map_or(String::new(), |state| format!(", {}", frame::state_name(state)));
        let (version, bytes) = (words::version(poll.version), words::bytes(poll.payload.len()));
        format!("{start}{state}, version {version}, {bytes}")
    }

    fn when(&self, packet: &Packet) -> When {
        let after = packet.time.zip(self.first).map(|(time, first)| time - first);
        let mark = self.options.style.mark();
        let clock =
            self.options.clock.zip(packet.time).map(|(clock, time)| clock.shown(time, mark));
        When { after, clock }
    }

    /// The time of day where a clock was given, and seconds since the first packet.
    fn when_words(&self, when: &When) -> String {
        let mark = self.options.style.mark();
        let clock = when.clock.as_ref().map_or(String::new(), |clock| format!("  {clock}"));
        let after = when.after.map_or(String::new(), |after| {
            let (sign, micros) = (if after < 0 { "-" } else { "" }, after.abs() / 1000);
            format!("  {}{}{}{:06} s", sign, micros / 1_000_000, mark, micros % 1_000_000)
        });
        clock + &after
    }

    /// Writes the table. `interrupted` is the last packet before an interrupt, where one came.
    pub fn finish(&self, interrupted: Option<u64>, out: &mut dyn Write) -> io::Result<Status> {
        let interrupted = interrupted.map(|packet| match packet {
            0 => "an interrupt ended the capture before its first packet".to_string(),
            packet => format!("an interrupt ended the capture after packet {packet}"),
        });
        let notes: Vec<String> = [self.passed.note(), self.requests.note(&self.asked), interrupted]
            .into_iter()
            .flatten()
            .collect();
        if self.options.json {
            let json = replay_json::table(&self.table, self.console, &notes);
            writeln!(out, "{}", json.on_one_line())?;
            return Ok(self.table.status());
        }
        if self.told {
            writeln!(out)?;
        }
        self.table.write(self.console, out)?;
        for note in notes {
            writeln!(out, "note: {note}")?;
        }
        Ok(self.table.status())
    }
}

fn cut(packet: &Packet, said: Option<usize>, there: usize) -> String {
    let why = match said {
        Some(said) => {
            format!(
                "not consumed: its size field says {} of payload, and the frame has {}",
                words::bytes(said),
                there
            )
        }
        None => format!("not consumed: the frame ends after {} of its head", words::bytes(there)),
    };
    if packet.bytes.len() < packet.length {
        return format!(
            "{} (the capture kept {} of its {} bytes)",
            why,
            packet.bytes.len(),
            packet.length
        );
    }
    why
}
