//! The program's own help, its versions and its ends.

mod common;

use common::{rig, run};
use std::io::Read;
use std::process::{Command, Stdio};

#[test]
fn help_for_all_and_for_each_command() {
    let all = run(&["--help"]);
    assert_eq!((all.status, all.err.as_str()), (0, ""));
    assert!(all.out.contains("loomfinch check RIG"), "{}", all.out);
    for (command, first) in
        [("check", "RIG"), ("consume", "RIG"), ("replay", "RIG"), ("pair", "DRIVE.rig")]
    {
        let help = run(&[command, "--help"]);
        assert_eq!(help.status, 0);
        assert!(help.out.starts_with(&format!("loomfinch {command} {first}")), "{}", help.out);
        assert!(help.out.contains("Example:"), "{}", help.out);
        assert_eq!(run(&["help", command]).out, help.out);
    }
    assert_eq!(run(&["help"]).out, all.out);
    assert_eq!(run(&["--version"]).out, format!("loomfinch {}\n", env!("CARGO_PKG_VERSION")));
}

#[test]
fn the_help_fits_a_terminal() {
    for command in [
        &["help"][..],
        &["help", "check"],
        &["help", "consume"],
        &["help", "replay"],
        &["help", "pair"],
    ] {
        for line in run(command).out.lines() {
            assert!(line.chars().count() <= 80, "{line}");
        }
    }
}

/// The options that a text names, as `--comma`.
fn options_of(text: &str) -> std::collections::BTreeSet<&str> {
    let ends = |c: char| !(c.is_ascii_lowercase() || c == '-');
    let starts = text.match_indices("--").map(|(at, _)| &text[at..]);
    let options = starts.map(|rest| &rest[..rest.find(ends).unwrap_or(rest.len())]);
    options.filter(|option| option.len() > 2).collect()
}

#[test]
fn every_option_is_in_the_help_and_in_the_document() {
    let document = format!("{}/../../docs/TOOL.md", env!("CARGO_MANIFEST_DIR"));
    let document = std::fs::read_to_string(document).unwrap();
    let parts: Vec<&str> = document.split("\n## ").collect();
    let times = parts.iter().find(|part| part.starts_with("Times\n")).unwrap();
    for (command, options) in [
        ("check", &["--comma", "--explain", "--json", "--strict"][..]),
        ("consume", &["--comma", "--from", "--not-ready", "--times", "--version"]),
        (
            "replay",
            &[
                "--between",
                "--changes",
                "--clock",
                "--comma",
                "--faults",
                "--from",
                "--json",
                "--node",
                "--object",
                "--quiet",
                "--times",
            ],
        ),
        ("pair", &["--comma", "--node", "--times"]),
    ] {
        let help = run(&["help", command]).out;
        let named: Vec<&str> = options_of(&help).into_iter().collect();
        assert_eq!(named, options, "{command}");
        let part = parts.iter().find(|part| part.starts_with(&format!("{command}\n"))).unwrap();
        for option in options {
            let common = ["--comma", "--times"].contains(option) && times.contains(option);
            assert!(common || options_of(part).contains(option), "{command}: {option}");
            // It is known: what is said to be wrong is something else.
            let err = run(&[command, option]).err;
            assert!(!err.contains("there is no option"), "{command}: {err}");
        }
    }
}

#[test]
fn no_number_has_a_mark_between_its_thousands() {
    let (faults, ramp, capture) = (rig("faults.rig"), rig("ramp.rig"), rig("rehearsal.pcap"));
    let long = "00".repeat(1491);
    let wide = common::file("wide.rig", b"6000h Variable VisibleString room 1491\n");
    for (arguments, number) in [
        (&["check", "--explain", &faults][..], "1491"),
        (&["check", "--json", &faults], "1491"),
        (&["check", &wide], "1490"),
        (&["consume", &ramp, "--from", "5", "--version", "1.2", &long], "1490"),
        (&["replay", &ramp, &capture], "90000"),
        (&["pair", &rig("drive.rig"), &ramp], "90000"),
    ] {
        let run = run(arguments);
        let said = run.out + &run.err;
        assert!(said.contains(number), "{said}");
        let digit = |at: usize| said.as_bytes().get(at).map_or(false, u8::is_ascii_digit);
        let marks =
            said.match_indices(',').filter(|(at, _)| digit(at.wrapping_sub(1)) && digit(at + 1));
        assert_eq!(marks.count(), 0, "{said}");
    }
}

#[test]
fn the_tool_is_found_within_ten_lines_of_the_readme() {
    let readme = format!("{}/../../README.md", env!("CARGO_MANIFEST_DIR"));
    let readme = std::fs::read_to_string(readme).unwrap();
    let first = readme.lines().take(10).collect::<Vec<_>>().join("\n");
    for wanted in ["./run", "target/rust/release/loomfinch", "docs/TOOL.md"] {
        assert!(first.contains(wanted), "{wanted}");
    }
}

#[test]
fn the_rig_of_the_help_is_a_rig() {
    let help = run(&["--help"]).out;
    let lines =
        help.lines().skip_while(|line| !line.contains("1400h")).take_while(|line| !line.is_empty());
    let text: Vec<&str> = lines.collect();
    let path = common::file("help.rig", text.join("\n").as_bytes());
    assert_eq!(run(&["check", &path]).out, "channel 0, from node 5, 1 element: pass\n");
}

/// The words of a text, however it is broken into lines.
fn words_of(text: &str) -> Vec<&str> {
    text.split_whitespace().collect()
}

#[test]
fn the_help_shows_what_is_printed() {
    for command in ["check", "consume", "replay", "pair"] {
        let help = run(&["help", command]).out;
        let example = help.split("\n  $ loomfinch ").nth(1).unwrap();
        let (line, printed) = example.split_once('\n').unwrap();
        let arguments: Vec<String> = line
            .split_whitespace()
            .map(|word| word.strip_prefix("rigs/").map_or(word.to_string(), rig))
            .collect();
        let wanted = words_of(printed.split("\n\n").next().unwrap());
        assert_eq!(words_of(&run(&arguments).out), wanted, "{command}");
    }
}

#[test]
fn errors_of_use() {
    let nothing: [&str; 0] = [];
    for (arguments, wanted) in [
        (&nothing[..], "a command is missing"),
        (&["chekc"], "there is no command 'chekc'"),
        (&["help", "chekc"], "there is no command 'chekc'"),
        (&["check"], "the rig file is missing"),
        (&["check", "a", "b"], "'b' is one argument too many"),
        (&["check", "--jsn", "a"], "there is no option '--jsn'"),
        (&["replay", "a"], "the capture is missing"),
        (&["check", "--", "--json"], "--json: "),
    ] {
        let run = run(arguments);
        assert_eq!((run.status, run.out.as_str()), (2, ""), "{arguments:?}");
        assert!(run.err.starts_with(&format!("loomfinch: {wanted}")), "{}", run.err);
    }
}

#[test]
fn a_closed_pipe_ends_quietly() {
    // More than a pipe holds: it is closed before all is written.
    let frames = vec![common::captures::response(5, 0x12, &[1, 2, 3, 4, 5, 6]); 2000];
    let capture = common::file("long.pcap", &common::captures::pcap(false, false, &frames));
    let mut child = Command::new(env!("CARGO_BIN_EXE_loomfinch"))
        .args(["replay", &rig("ramp.rig"), &capture])
        .stdout(Stdio::piped())
        .stderr(Stdio::piped())
        .spawn()
        .unwrap();
    drop(child.stdout.take());
    let mut err = String::new();
    child.stderr.take().unwrap().read_to_string(&mut err).unwrap();
    assert_eq!((child.wait().unwrap().code(), err.as_str()), (Some(2), ""));
}

/// The lines of a document that are indented as samples, from the first that contains some words on.
fn sample(document: &str, from: &str) -> Vec<String> {
    let path = format!("{}/../../docs/{}", env!("CARGO_MANIFEST_DIR"), document);
    let text = std::fs::read_to_string(path).unwrap();
    let lines = text.lines().skip_while(|line| !line.contains(from));
    let sample = lines.take_while(|line| line.is_empty() || line.starts_with("    "));
    sample.map(|line| line.strip_prefix("    ").unwrap_or("").to_string()).collect()
}

#[test]
fn the_rig_of_the_document_is_a_rig() {
    let text = sample("RIG.md", "# A winch, node 5").join("\n");
    let path = common::file("document.rig", text.as_bytes());
    assert_eq!(run(&["check", &path]).out, "channel 0, from node 5, 2 elements: pass\n");
}

#[test]
fn the_document_shows_what_is_said_of_a_line_in_latin_1() {
    let path = common::file("winch.rig", b"rig 1\nnode 5 \"Drehb\xFChne\"\n6000h Variable U8\n");
    let said = &sample("RIG.md", "winch.rig:2:14")[0];
    let place = path.strip_suffix("winch.rig").unwrap();
    assert_eq!(run(&["check", &path]).err.replace(place, ""), format!("{said}\n"));
}

#[test]
fn the_document_shows_what_is_printed() {
    for command in [
        "$ loomfinch check",
        "$ loomfinch consume",
        "$ loomfinch consume rigs/captions.rig",
        "$ loomfinch consume rigs/limits.rig",
        "$ loomfinch pair",
    ] {
        let lines = sample("TOOL.md", command);
        let arguments: Vec<String> = lines[0]
            .split_whitespace()
            .skip(2)
            .map(|word| word.strip_prefix("rigs/").map_or(word.to_string(), rig))
            .collect();
        assert_eq!(run(&arguments).out.trim_end(), lines[1..].join("\n").trim_end());
    }
}
