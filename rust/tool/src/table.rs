//! The table at the end of a replay: what each sender's frames came to.

use crate::console::Console;
use crate::failure::Status;
use crate::quoting;
use crate::report::Told;
use crate::trouble::{Incident, Trouble, Troubles};
use std::collections::BTreeMap;
use std::io::{self, Write};

#[derive(Default)]
pub struct Table {
    /// None stands for frames that end before they name their sender.
    senders: BTreeMap<Option<u8>, Row>,
    /// Frames that are not given to the console, by what they are.
    others: BTreeMap<Other, u64>,
    /// Payloads that a channel looked at, and frames that could not be consumed.
    looked_at: u64,
}

/// A frame that is not given to the console.
#[derive(Clone, Debug, PartialEq, Eq, PartialOrd, Ord)]
pub enum Other {
    /// It carries no process data.
    Frame(String),
    /// It was captured on something else than an Ethernet.
    Link(u16),
    /// It carries process data that is not for the rig.
    LeftOut(String),
}

impl Other {
    fn shown(&self) -> String {
        match self {
            Other::Frame(kind) | Other::LeftOut(kind) => kind.clone(),
            Other::Link(number) => format!("not Ethernet (link type {number})"),
        }
    }
}

/// What a sender's frames came to.
#[derive(Default)]
pub struct Row {
    pub frames: u64,
    pub not_ready: u64,
    pub written: u64,
    pub troubles: Troubles,
}

impl Table {
    /// Counts a frame whose payload was given to the console.
    pub fn told(&mut self, sender: u8, packet: u64, ready: bool, told: &Told) {
        let row = self.senders.entry(Some(sender)).or_default();
        row.frames += 1;
        row.not_ready += u64::from(!ready);
        row.written += told.written;
        row.troubles.count(packet, &told.troubles);
        self.looked_at += u64::from(told.taken);
    }

    /// Counts a frame that could not be consumed.
    pub fn damaged(&mut self, sender: Option<u8>, packet: u64, why: &str) {
        let row = self.senders.entry(sender).or_default();
        row.frames += 1;
        let incident = Incident::of_payload(Trouble::Damaged, why.to_string());
        row.troubles.count(packet, &[incident]);
        self.looked_at += 1;
    }

    pub fn other(&mut self, other: Other) {
        *self.others.entry(other).or_default() += 1;
    }

    pub fn status(&self) -> Status {
        match self.senders.values().any(|row| !row.troubles.is_empty()) {
            true => Status::Faults,
            false if self.looked_at == 0 => Status::Nothing,
            false => Status::Clean,
        }
    }

    /// Why no channel looked at anything; none where one did.
    pub fn nothing(&self, console: &Console) -> Option<&'static str> {
        let link = |other: &Other| matches!(other, Other::Link(_));
        let left_out = |other: &Other| matches!(other, Other::LeftOut(_));
        let known = |sender: &Option<u8>| sender.and_then(|one| console.channel_of(one)).is_some();
        let ready =
            |&(sender, row): &(&Option<u8>, &Row)| known(sender) && row.frames > row.not_ready;
        let channel = |(sender, _): (&Option<u8>, &Row)| console.channel_of((*sender)?);
        let channels = self.senders().filter(ready).filter_map(channel);
        let off: Vec<bool> = channels.map(|channel| console.is_off(channel)).collect();
        if self.looked_at > 0 {
            None
        } else if self.senders.is_empty() && self.others.is_empty() {
            Some("the capture has no packet")
        } else if !off.is_empty() {
            Some(unmapped(&off))
        } else if self.senders.keys().any(known) {
            Some("no frame of a sender that the rig takes was ready")
        } else if !self.senders.is_empty() {
            Some("no channel of the rig takes a sender of these frames")
        } else if self.others.keys().any(left_out) {
            Some("all frames with process data were left out")
        } else if self.others.keys().all(link) {
            Some("no packet was captured on an Ethernet")
        } else {
            Some("no frame carries process data (PReq or PRes)")
        }
    }

    pub fn senders(&self) -> impl Iterator<Item = (&Option<u8>, &Row)> {
        self.senders.iter()
    }

    /// The frames that were not given to the console: what they are, and how many.
    pub fn others(&self) -> impl Iterator<Item = (String, u64)> + '_ {
        self.others.iter().map(|(other, count)| (other.shown(), *count))
    }

    pub fn write(&self, console: &Console, out: &mut dyn Write) -> io::Result<()> {
        if !self.senders.is_empty() {
            self.write_senders(console, out)?;
        }
        if !self.others.is_empty() {
            let kinds: Vec<String> =
                self.others().map(|(kind, count)| format!("{count} {kind}")).collect();
            writeln!(out, "other frames: {}", kinds.join(", "))?;
        }
        match self.nothing(console) {
            Some(why) => writeln!(out, "nothing was looked at: {why}"),
            None => Ok(()),
        }
    }

    /// A column for each kind of trouble that any sender had, and below each sender the first of each kind.
    fn write_senders(&self, console: &Console, out: &mut dyn Write) -> io::Result<()> {
        let had = |kind: &Trouble| self.senders.values().any(|row| row.troubles.frames(*kind) > 0);
        let kinds: Vec<Trouble> = Trouble::ALL.into_iter().filter(had).collect();
        let names: String = kinds.iter().map(|kind| format!("  {}", kind.name())).collect();
        writeln!(out, "sender  frames  not ready  fields written{names}")?;
        for (sender, row) in &self.senders {
            let shown = sender.map_or("?".to_string(), |sender| sender.to_string());
            let count =
                |kind: &Trouble| format!("  {:>1$}", row.troubles.frames(*kind), kind.name().len());
            let counts: String = kinds.iter().map(count).collect();
            let name = sender.and_then(|sender| console.rig.nodes.get(&sender));
            let name = name.map_or(String::new(), |name| format!("  {}", quoting::text(name)));
            writeln!(
                out,
                "{:>6}  {:>6}  {:>9}  {:>14}{}{}",
                shown, row.frames, row.not_ready, row.written, counts, name
            )?;
            for line in row.troubles.lines() {
                writeln!(out, "        {line}")?;
            }
            if sender.map_or(false, |sender| console.channel_of(sender).is_none()) {
                writeln!(out, "        no channel takes this sender")?;
            }
        }
        Ok(())
    }
}

/// Why channels looked at no frame that they were given; of each is said whether it is off.
fn unmapped(off: &[bool]) -> &'static str {
    match (off.contains(&true), off.contains(&false)) {
        (true, false) => "the channels that take these frames are off",
        (true, true) => "the channels that take these frames have no mapping, or are off",
        (false, _) => "the channels that take these frames have no mapping",
    }
}
