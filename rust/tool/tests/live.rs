//! `loomfinch replay` while the capture comes.

#![cfg(unix)]

mod common;

use common::captures::{pcap, response};
use common::rig;
use std::io::{BufRead, BufReader, Read, Write};
use std::process::{Child, Command, Stdio};
use std::sync::mpsc::{channel, Receiver};
use std::time::Duration;

fn replay(options: &[&str]) -> Child {
    Command::new(env!("CARGO_BIN_EXE_loomfinch"))
        .args(["replay", &rig("ramp.rig"), "-"])
        .args(options)
        .stdin(Stdio::piped())
        .stdout(Stdio::piped())
        .spawn()
        .unwrap()
}

/// The lines of a program as it writes them.
fn lines(child: &mut Child) -> Receiver<String> {
    let (sender, receiver) = channel();
    let out = BufReader::new(child.stdout.take().unwrap());
    std::thread::spawn(move || {
        out.lines().map(Result::unwrap).try_for_each(|line| sender.send(line))
    });
    receiver
}

fn interrupt(child: &Child) {
    let kill = format!("kill -INT {}", child.id());
    assert!(Command::new("bash").args(["-c", &kill]).status().unwrap().success());
}

/// Waits until an interrupt no longer ends the program by itself.
fn until_watched(child: &Child) {
    let caught = |status: String| {
        let mask = status.lines().find_map(|line| line.strip_prefix("SigCgt:"))?.trim().to_string();
        u64::from_str_radix(&mask, 16).ok().map(|mask| mask & 2 != 0)
    };
    for _ in 0..600 {
        let status = std::fs::read_to_string(format!("/proc/{}/status", child.id()));
        if status.ok().and_then(caught) == Some(true) {
            return;
        }
        std::thread::sleep(Duration::from_millis(100));
    }
    panic!("no interrupt is caught");
}

const WAIT: Duration = Duration::from_secs(60);

#[test]
fn each_packet_is_told_as_it_comes_and_an_interrupt_writes_the_table() {
    let capture = pcap(false, false, &vec![response(5, 0x12, &[0xC4, 9, 0, 0, 0, 0]); 2]);
    let mut child = replay(&[]);
    let mut input = child.stdin.take().unwrap();
    let lines = lines(&mut child);
    // The first packet, and half of the second.
    input.write_all(&capture[..capture.len() - 20]).unwrap();
    input.flush().unwrap();
    assert!(lines.recv_timeout(WAIT).unwrap().starts_with("No. 1  0.000000 s  PRes from node 5"));
    assert!(lines.recv_timeout(WAIT).unwrap().contains("-> 2500 ms = 2.500 s"));
    lines.recv_timeout(WAIT).unwrap();
    interrupt(&child);
    let rest: Vec<String> = (0..4).map(|_| lines.recv_timeout(WAIT).unwrap()).collect();
    let wanted = [
        "",
        "sender  frames  not ready  fields written",
        "     5       1          0               2",
        "note: an interrupt ended the capture after packet 1",
    ];
    assert_eq!(rest, wanted);
    assert_eq!(child.wait().unwrap().code(), Some(0));
}

#[test]
#[cfg(target_os = "linux")]
fn an_interrupt_before_the_capture_has_begun() {
    for begun in [&[][..], &[0xD4, 0xC3], &pcap(false, false, &[])[..]] {
        let mut child = replay(&[]);
        let mut input = child.stdin.take().unwrap();
        let lines = lines(&mut child);
        until_watched(&child);
        input.write_all(begun).unwrap();
        input.flush().unwrap();
        interrupt(&child);
        let rest: Vec<String> = (0..2).map(|_| lines.recv_timeout(WAIT).unwrap()).collect();
        let wanted = [
            "nothing was looked at: the capture has no packet",
            "note: an interrupt ended the capture before its first packet",
        ];
        assert_eq!(rest, wanted);
        assert_eq!(child.wait().unwrap().code(), Some(3));
    }
}

#[test]
fn an_interrupt_of_all_programs_of_a_pipe_writes_the_table() {
    // As a terminal does: all programs of the pipe are one group, and what makes the library's calls may be one of them.
    let mut child = Command::new("bash")
        .args(["-c", "set -m; exec 3<&0; \"$0\" \"$@\" <&3 & echo $!; wait $!"])
        .arg(env!("CARGO_BIN_EXE_loomfinch"))
        .args(["replay", &rig("ramp.rig"), "-"])
        .stdin(Stdio::piped())
        .stdout(Stdio::piped())
        .stderr(Stdio::piped())
        .spawn()
        .unwrap();
    let mut input = child.stdin.take().unwrap();
    let lines = lines(&mut child);
    let group = lines.recv_timeout(WAIT).unwrap();
    let capture = pcap(false, false, &vec![response(5, 0x12, &[0xC4, 9, 0, 0, 0, 0]); 100]);
    // Packets come without end, so that the interrupt meets one that is being consumed.
    std::thread::spawn(move || {
        let mut sent = input.write_all(&capture);
        while sent.is_ok() {
            sent = input.write_all(&capture[24..]);
        }
    });
    assert!(lines.recv_timeout(WAIT).unwrap().starts_with("No. 1  "));
    let kill = format!("kill -INT -- -{group}");
    assert!(Command::new("bash").args(["-c", &kill]).status().unwrap().success());
    let last = lines.iter().last().unwrap();
    assert!(last.starts_with("note: an interrupt ended the capture after packet "), "{last}");
    let mut err = String::new();
    child.stderr.take().unwrap().read_to_string(&mut err).unwrap();
    assert_eq!(child.wait().unwrap().code(), Some(0), "{err}");
}
