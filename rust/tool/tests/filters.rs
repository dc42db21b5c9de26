//! What `loomfinch replay` tells on wish: the table always sees all frames.

mod common;

use common::captures::{pcap, response};
use common::{file, rig, run, Run};

fn replay(options: &[&str]) -> Run {
    let (rig, capture) = (rig("ramp.rig"), rig("rehearsal.pcap"));
    run(&[&["replay", &rig, &capture][..], options].concat())
}

/// The numbers of the packets that are told.
fn told(options: &[&str]) -> Vec<u32> {
    let out = replay(options).out;
    let number = |line: &str| line.strip_prefix("No. ")?.split_whitespace().next()?.parse().ok();
    assert!(
        out.contains("\n     5       7          1               6    1      1        1"),
        "{out}"
    );
    out.lines().filter_map(number).collect()
}

#[test]
fn frames_by_sender_change_and_fault() {
    assert_eq!(told(&[]), [2, 3, 4, 5, 6, 7, 8, 9]);
    assert_eq!(told(&["--from", "9"]), [5]);
    assert_eq!(told(&["--changes"]), [2, 4, 6, 7, 8]);
    assert_eq!(told(&["--faults"]), [6, 7, 8, 9]);
    assert_eq!(told(&["--faults", "--changes"]), [6, 7, 8]);
    assert_eq!(told(&["--object", "6000h/0"]), [2, 4, 6, 7, 8]);
    assert_eq!(told(&["--object", "6200h/3", "--changes"]), [6]);
    assert_eq!(told(&["--object", "6200h/1"]), []);
    assert_eq!(told(&["--object", "1C81h"]), [7]);
}

#[test]
fn an_object_is_followed() {
    let out = replay(&["--object", "6000h", "--changes"]).out;
    let wanted = r#"No. 2  0.000400 s  PRes from node 5, Operational, version 1.2 (12h), 8 bytes
    6000h/0 "Ramp time": 0 ms = 0.000 s -> 2500 ms = 2.500 s
No. 4  0.020400 s  PRes from node 5, Operational, version 1.2 (12h), 8 bytes
    6000h/0 "Ramp time": 2500 ms = 2.500 s -> 3000 ms = 3.000 s
No. 6  0.030400 s  PRes from node 5, Operational, version 1.2 (12h), 8 bytes
    6000h/0 "Ramp time": 3000 ms = 3.000 s -> 24464 ms = 24.464 s
      CUT: element 1's field is 90 5F 01 00, 90000 ms = 90.000 s; the last 2 bytes, 01 00, are lost

sender"#;
    assert!(out.starts_with(wanted), "{out}");
}

#[test]
fn an_object_that_is_not_reached_is_told_with_the_reason() {
    let out = replay(&["--object", "6200h/3", "--faults"]).out;
    let wanted = r#"No. 7  0.040400 s  PRes from node 5, Operational, version 1.2 (12h), 3 bytes
    stopped at element 1 (6000h/0 "Ramp time"): it needs 4 bytes of payload, and 3 came
    element 2 (6200h/3 "Move times") is not reached
No. 8"#;
    assert!(out.contains(wanted), "{out}");
}

#[test]
fn a_part_of_the_day_on_a_clock() {
    // The rehearsal begins at 22:13:20 UTC.
    let out = replay(&["--clock", "+01:00", "--comma"]).out;
    assert!(out.starts_with("No. 2  23:13:20,000400  0,000400 s  PRes from node 5"), "{out}");
    let clock = ["--clock", "+01:00", "--between"];
    let between = |part: &'static str| told(&[&clock[..], &[part]].concat());
    assert_eq!(between("23:13:20.02..23:13:20.035"), [4, 5, 6]);
    assert_eq!(between("23:13:20..23:13:20"), []);
    assert_eq!(between("23:00..00:30").len(), 8);
    assert_eq!(between("20:14:00..20:15:00"), []);
    for (options, wanted) in [
        (&["--between", "20:14..20:15"][..], "--between needs --clock, as in --clock +01:00"),
        (
            &["--clock", "1"],
            "--clock needs how far the clock is ahead of UTC, as +01:00, or Z, not '1'",
        ),
        (&["--clock", "Z", "--between", "8"], "--between needs two times of the day"),
        (&["--object", "6000"], "--object needs a place, as 6000h/0, not '6000'"),
        (&["--from", "0"], "--from needs a node from 1 to 240"),
    ] {
        let run = replay(options);
        assert_eq!(run.status, 2);
        assert!(run.err.contains(wanted), "{}", run.err);
    }
}

#[test]
fn the_state_of_a_sender_is_told() {
    let mut stopped = response(5, 0x12, &[0; 6]);
    stopped[17] = 0x4D;
    let mut strange = stopped.clone();
    strange[17] = 0x7B;
    let capture = file("states.pcap", &pcap(false, false, &[stopped, strange]));
    let out = run(&["replay", &rig("ramp.rig"), &capture]).out;
    assert!(out.contains("No. 1  0.000000 s  PRes from node 5, Stopped, version"), "{out}");
    assert!(out.contains("PRes from node 5, NMT state 7Bh, version"), "{out}");
}

#[test]
fn json_has_a_line_for_each_frame_and_one_for_the_table() {
    let run = replay(&["--json", "--faults", "--clock", "Z"]);
    assert_eq!(run.status, 1);
    let lines: Vec<&str> = run.out.lines().collect();
    let wanted = r#"{"packet": 6, "nanoseconds": 30400000, "clock": "22:13:20.030400", "frame": "PRes", "sender": 5, "name": null, "state": "Operational", "version": 18, "ready": true, "bytes": 8, "taken": true, "changes": [{"index": 24576, "sub_index": 0, "before": "3000 ms = 3.000 s", "after": "24464 ms = 24.464 s"}, {"index": 25088, "sub_index": 3, "before": "0 ms = 0.000 s", "after": "1 ms = 0.001 s"}], "troubles": [{"kind": "CUT", "text": "6000h/0 \"Ramp time\": element 1's field is 90 5F 01 00, 90000 ms = 90.000 s; the last 2 bytes, 01 00, are lost", "element": 1, "at": null, "needed": null, "had": null}], "#;
    assert!(lines[0].starts_with(wanted), "{}", lines[0]);
    assert!(lines[3].starts_with(r#"{"packet": 9, "#), "{}", lines[3]);
    let table = r#"{"senders": [{"sender": 5, "channel": 0, "frames": 7, "not_ready": 1, "fields_written": 6, "troubles": [{"kind": "CUT", "frames": 1, "first": 6, "text": "#;
    assert!(lines[4].starts_with(table), "{}", lines[4]);
    assert!(lines[4].ends_with(r#""others": [{"kind": "EtherType 0800h", "frames": 1}, {"kind": "SoC", "frames": 1}], "nothing": null, "notes": []}"#), "{}", lines[4]);
    assert_eq!(lines.len(), 5);
    assert_eq!(replay(&["--json", "--quiet"]).out.lines().count(), 1);
}
