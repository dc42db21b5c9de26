//! Ranges: payloads are not held against them, and each command says where that matters.

mod common;

use common::captures::{pcap, response};
use common::{file, rig, run};

/// Node 5 sends a signed position, a level, and the same level to an object whose range is of another type.
const STAGE: &str = "
1400h Record
  1 Unsigned8 = 5
  2 Unsigned8 = 10h
1600h Array
  1 6000h/0 at 0 length 2
  2 6001h/0 at 2 length 1
  3 6002h/0 at 2 length 1
  4 6003h/0 at 2 length 1
6000h Variable Integer16 range -100 to 100
6001h Variable Unsigned8 range 0 to 200
6002h Variable Unsigned8 range Unsigned16 0 to 1
6003h Variable Unsigned8 range 0 to 255
";

fn consume(rig: &str, payloads: &[&str]) -> common::Run {
    run(&[&["consume", rig, "--from", "5", "--version", "1.0"][..], payloads].concat())
}

#[test]
fn the_check_says_which_ranges_fields_can_pass() {
    let path = file("ranges.rig", STAGE.as_bytes());
    let wanted = "channel 0, from node 5, 4 elements: pass
note: channel 0: element 1 maps onto 6000h/0, whose range is -100 to 100: payloads are stored outside it all the same
note: channel 0: element 2 maps onto 6001h/0, whose range is 0 to 200: payloads are stored outside it all the same
note: channel 0: elements 2 and 3 share byte 2 of the payload
note: channel 0: elements 2 and 4 share byte 2 of the payload
";
    let found = run(&["check", &path]);
    assert_eq!((found.status, found.out.as_str()), (0, wanted));
    let json = run(&["check", "--json", &path]).out;
    assert!(json.contains("\"kind\": \"RangedTarget\""), "{json}");
    let times = run(&["check", &rig("limits.rig")]).out;
    assert!(times.contains("whose range is 0 ms to 60000 ms: payloads"), "{times}");
}

#[test]
fn values_outside_their_range_are_stored_and_noted() {
    let path = file("outside.rig", STAGE.as_bytes());
    let wanted = "payload 1: 3 bytes from node 5, version 1.0 (10h)
  6000h/0: 0 -> -101
    note: -101 is below the range of 6000h/0, -100: consuming ignores ranges, the drive is the master
  6001h/0: 0 -> 201
    note: 201 is above the range of 6001h/0, 200: consuming ignores ranges, the drive is the master
  6002h/0: 0 -> 201
  6003h/0: 0 -> 201
payload 2: 3 bytes from node 5, version 1.0 (10h)
  6000h/0: -101 -> 100
  6001h/0: 201 -> 200
  6002h/0: 201 -> 200
  6003h/0: 201 -> 200
";
    let found = consume(&path, &["9B FF C9", "64 00 C8"]);
    assert_eq!((found.status, found.out.as_str()), (0, wanted));
}

#[test]
fn times_are_noted_as_times() {
    let limits = rig("limits.rig");
    let note = "    note: 90000 ms is above the range of 6200h/3, 60000 ms: consuming ignores ranges, the drive is the master\n";
    assert!(consume(&limits, &["905F0100"]).out.ends_with(note));
    let plain = std::fs::read_to_string(&limits).unwrap().replace("0 ms to 60000 ms", "0 to 60000");
    let plain = file("plain.rig", plain.as_bytes());
    let note = "    note: 90000 is above the range of 6200h/3, 60000: ";
    assert!(consume(&plain, &["905F0100"]).out.contains(note));
    let asked = consume(&plain, &["--times", "905F0100"]).out;
    assert!(asked.contains("note: 90000 ms is above the range of 6200h/3, 60000 ms: "), "{asked}");
}

#[test]
fn a_replay_notes_them_frame_by_frame() {
    let times = [10_000_u32, 90_000, 90_000];
    let frames = times.map(|time| response(5, 0x10, &time.to_le_bytes()));
    let capture = file("limits.pcap", &pcap(false, false, &frames));
    let replay = |option: &str| {
        let arguments = ["replay", &rig("limits.rig"), &capture, option];
        run(&arguments[..3 + usize::from(!option.is_empty())])
    };
    let note = "note: 90000 ms is above the range of 6200h/3, 60000 ms: consuming ignores ranges, the drive is the master";
    let all = replay("");
    assert_eq!((all.status, all.out.matches(note).count()), (0, 2), "{}", all.out);
    assert_eq!(replay("--changes").out.matches(note).count(), 1);
    assert_eq!(replay("--faults").out.matches(note).count(), 0);
    let json = replay("--json").out;
    assert_eq!(json.matches(&format!("\"{note}\"")).count(), 2, "{json}");
    let last = "2 frames left a value outside its range, first No. 2: 90000 ms is above the range of 6200h/3, 60000 ms: ";
    let quiet = replay("--quiet").out;
    assert!(quiet.lines().last().unwrap().starts_with(&format!("note: {last}")), "{quiet}");
    assert!(json.contains(&format!("\"notes\": [\"{last}")), "{json}");
}

#[test]
fn a_range_that_is_wrong_is_told_with_its_place() {
    let path = file("wrong.rig", b"6200h Array range 0 to 60000\n  1 Unsigned32\n  2 Unsigned16\n");
    let found = run(&["check", &path]);
    let wanted = "wrong.rig:1:13: expected a type behind 'range', as in range Unsigned32 0 to 60000: the elements are not all \
                  of one integer type\n";
    assert!(found.status == 2 && found.err.ends_with(wanted), "{}", found.err);
}
