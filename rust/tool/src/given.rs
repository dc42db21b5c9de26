//! A command's arguments as they were given.

use crate::args::Named;
use crate::clock::{Between, Clock};
use crate::quoting;
use crate::rig::{hex_bytes, numbers};
use crate::words::Style;
use std::ffi::OsString;
use std::path::PathBuf;

/// A command's arguments, options apart from the others.
pub struct Given {
    command: &'static str,
    pub help: bool,
    flags: Vec<String>,
    settings: Vec<(String, String)>,
    pub words: Vec<OsString>,
}

/// The options that a command knows: those that stand alone, and those with a value behind them.
pub struct Known<'a> {
    pub flags: &'a [&'a str],
    pub settings: &'a [&'a str],
}

impl Given {
    pub fn split(
        command: &'static str,
        arguments: Vec<OsString>,
        known: Known,
    ) -> Result<Given, String> {
        let (flags, settings, words) = (Vec::new(), Vec::new(), Vec::new());
        let mut given = Given { command, help: false, flags, settings, words };
        let mut arguments = arguments.into_iter();
        while let Some(argument) = arguments.next() {
            let text = argument.to_string_lossy().into_owned();
            match text.as_str() {
                "--" => given.words.extend(arguments.by_ref()),
                "--help" | "-h" => given.help = true,
                "-" => given.words.push(argument),
                _ if text.starts_with('-') => given.option(&text, &known, &mut arguments)?,
                _ => given.words.push(argument),
            }
        }
        Ok(given)
    }

    fn option(
        &mut self,
        text: &str,
        known: &Known,
        rest: &mut impl Iterator<Item = OsString>,
    ) -> Result<(), String> {
        let (name, value) = match text.split_once('=') {
            Some((name, value)) => (name, Some(value.to_string())),
            None => (text, None),
        };
        if known.flags.contains(&text) {
            self.flags.push(text.to_string());
        } else if known.settings.contains(&name) {
            let behind = || rest.next().map(|value| value.to_string_lossy().into_owned());
            let value = value.or_else(behind);
            let missing = || self.wrong(&format!("{name} needs a value behind it"));
            let value = value.ok_or_else(missing)?;
            self.settings.push((name.to_string(), value));
        } else {
            return Err(self.wrong(&format!("there is no option {}", quoting::word(text))));
        }
        Ok(())
    }

    pub fn wrong(&self, text: &str) -> String {
        format!("{}.\n'loomfinch {} --help' says more.", text, self.command)
    }

    pub fn has(&self, flag: &str) -> bool {
        self.flags.iter().any(|given| given == flag)
    }

    pub fn style(&self) -> Style {
        Style { times: self.has("--times"), comma: self.has("--comma") }
    }

    pub fn file(&mut self, what: &str) -> Result<Named, String> {
        if self.words.is_empty() {
            return Err(self.wrong(&format!("{what} is missing")));
        }
        let word = self.words.remove(0);
        let shown = quoting::printable(&word.to_string_lossy());
        Ok(Named { path: PathBuf::from(word), shown })
    }

    pub fn no_more(&self) -> Result<(), String> {
        match self.words.first() {
            None => Ok(()),
            Some(word) => {
                let text =
                    format!("{} is one argument too many", quoting::word(&word.to_string_lossy()));
                Err(self.wrong(&text))
            }
        }
    }

    /// The value of a setting, where it was given; the last one stands.
    pub fn setting(&self, name: &str) -> Option<&str> {
        self.settings.iter().rev().find(|setting| setting.0 == name).map(|found| found.1.as_str())
    }

    /// A node from 1 to the last, where it was given.
    pub fn node(&self, name: &str, last: u8) -> Result<Option<u8>, String> {
        let value = match self.setting(name) {
            Some(value) => value,
            None => return Ok(None),
        };
        match numbers::unsigned(value).and_then(|number| u8::try_from(number).ok()) {
            Some(number) if (1..=last).contains(&number) => Ok(Some(number)),
            _ => {
                let value = quoting::word(value);
                let text = format!(
                    "{name} needs a node from 1 to {last}, as 16, 10h or 0x10, not {value}"
                );
                Err(self.wrong(&text))
            }
        }
    }

    /// The mapping version, which must be given: 1.2, 12h, 0x12 or 18.
    pub fn version(&self) -> Result<u8, String> {
        let value = match self.setting("--version") {
            Some(value) => value,
            None => {
                let text = "--version is missing: the payload's mapping version, as in --version 1.2 or 12h";
                return Err(self.wrong(text));
            }
        };
        let plain = || numbers::unsigned(value).and_then(|number| u8::try_from(number).ok());
        numbers::version(value).or_else(plain).ok_or_else(|| {
            let value = quoting::word(value);
            self.wrong(&format!("--version needs a mapping version, as 1.2 or 12h, not {value}"))
        })
    }

    pub fn payload(&self, word: &OsString) -> Result<Vec<u8>, String> {
        let text = word.to_string_lossy();
        let groups = text.split(|c: char| c.is_whitespace() || c == ':');
        let bytes: Option<Vec<Vec<u8>>> = groups.map(hex_bytes).collect();
        bytes.map(|bytes| bytes.concat()).ok_or_else(|| {
            let text = format!(
                "a payload is pairs of hexadecimal digits, as in C40910270000, not {}",
                quoting::word(&text)
            );
            self.wrong(&text)
        })
    }

    /// The places that `--object` names, each time that it is given: 6000h/0, or 6000h.
    pub fn objects(&self) -> Result<Vec<(u16, u8)>, String> {
        let named = self.settings.iter().filter(|setting| setting.0 == "--object");
        named
            .map(|(_, value)| {
                numbers::place(value).ok_or_else(|| {
                    let value = quoting::word(value);
                    self.wrong(&format!("--object needs a place, as 6000h/0, not {value}"))
                })
            })
            .collect()
    }

    pub fn clock(&self) -> Result<Option<Clock>, String> {
        let parsed = |value: &str| {
            Clock::parse(value).ok_or_else(|| {
                let value = quoting::word(value);
                self.wrong(&format!(
                    "--clock needs how far the clock is ahead of UTC, as +01:00, or Z, not {value}"
                ))
            })
        };
        self.setting("--clock").map(parsed).transpose()
    }

    pub fn between(&self, clock: Option<Clock>) -> Result<Option<Between>, String> {
        let value = match self.setting("--between") {
            Some(value) => value,
            None => return Ok(None),
        };
        let clock = clock.ok_or_else(|| {
            self.wrong("--between needs --clock, as in --clock +01:00: captures count in UTC")
        })?;
        let between = Between::parse(value, clock).ok_or_else(|| {
            let value = quoting::word(value);
            self.wrong(&format!(
                "--between needs two times of the day, as 20:14:00..20:15:00, not {value}"
            ))
        })?;
        Ok(Some(between))
    }
}
