//! `loomfinch replay`.

mod common;

use common::captures::{
    interface, interface_behind, packet, pcap, pcap_of, request, response, section, simple_packet,
};
use common::{file, rig, run};
use std::process::Command;

#[test]
fn the_rehearsal_is_made_by_its_script() {
    let made = Command::new("bash").arg(rig("make-capture")).output().unwrap();
    assert!(made.status.success(), "{}", String::from_utf8_lossy(&made.stderr));
    assert_eq!(made.stdout, std::fs::read(rig("rehearsal.pcap")).unwrap());
}

#[test]
fn the_rehearsal_tells_its_story() {
    let run = run(&["replay", &rig("ramp.rig"), &rig("rehearsal.pcap")]);
    assert_eq!(run.status, 1);
    let wanted = r#"No. 2  0.000400 s  PRes from node 5, Operational, version 1.2 (12h), 8 bytes
    6000h/0 "Ramp time": 0 ms = 0.000 s -> 2500 ms = 2.500 s
    6200h/3 "Move times": 0 ms = 0.000 s, as before
No. 3  0.010400 s  PRes from node 5, Operational, version 1.2 (12h), 8 bytes
    not ready: nothing happens
No. 4  0.020400 s  PRes from node 5, Operational, version 1.2 (12h), 8 bytes
    6000h/0 "Ramp time": 2500 ms = 2.500 s -> 3000 ms = 3.000 s
    6200h/3 "Move times": 0 ms = 0.000 s, as before
No. 5  0.020700 s  PRes from node 9, Operational, version 1.2 (12h), 8 bytes
    no channel of the rig takes node 9: nothing happens
No. 6  0.030400 s  PRes from node 5, Operational, version 1.2 (12h), 8 bytes
    6000h/0 "Ramp time": 3000 ms = 3.000 s -> 24464 ms = 24.464 s
      CUT: element 1's field is 90 5F 01 00, 90000 ms = 90.000 s; the last 2 bytes, 01 00, are lost
    6200h/3 "Move times": 0 ms = 0.000 s -> 1 ms = 0.001 s
No. 7  0.040400 s  PRes from node 5, Operational, version 1.2 (12h), 3 bytes
    stopped at element 1 (6000h/0 "Ramp time"): it needs 4 bytes of payload, and 3 came
    element 2 (6200h/3 "Move times") is not reached
    1C81h/0 "Short payloads": the bit of node 5 is set (byte 0: 00 -> 10)
No. 8  0.050400 s  PRes from node 5, Operational, version 2.2 (22h), 8 bytes
    refused: the payload has version 2.2 (22h), channel 0 expects 1.0 to 1.F
    1C80h/0 "Wrong versions": the bit of node 5 is set (byte 0: 00 -> 10)
No. 9  0.060400 s  PRes from node 5
    not consumed: its size field says 100 bytes of payload, and the frame has 36

sender  frames  not ready  fields written  CUT  short  version  damaged
     5       7          1               6    1      1        1        1
        CUT in No. 6: 6000h/0 "Ramp time": element 1's field is 90 5F 01 00, 90000 ms = 90.000 s; the last 2 bytes, 01 00, are lost
        short in No. 7: stopped at element 1 (6000h/0 "Ramp time"): it needs 4 bytes of payload, and 3 came
        version in No. 8: refused: the payload has version 2.2 (22h), channel 0 expects 1.0 to 1.F
        damaged in No. 9: not consumed: its size field says 100 bytes of payload, and the frame has 36
     9       1          0               0    0      0        0        0
        no channel takes this sender
other frames: 1 EtherType 0800h, 1 SoC
"#;
    assert_eq!(run.out, wanted);
}

#[test]
fn the_mended_rig_keeps_the_ramp() {
    let run = run(&["replay", &rig("mended.rig"), &rig("rehearsal.pcap"), "--comma"]);
    assert!(run.out.contains("3000 ms = 3,000 s -> 90000 ms = 90,000 s\n"), "{}", run.out);
    assert!(!run.out.contains("CUT"), "{}", run.out);
}

#[test]
fn quiet_writes_the_table_alone() {
    let run = run(&["replay", "--quiet", &rig("ramp.rig"), &rig("rehearsal.pcap")]);
    assert!(run.out.starts_with("sender  frames"), "{}", run.out);
    assert_eq!(run.out.lines().count(), 9);
}

#[test]
fn the_table_counts_each_kind_and_names_cuts_first() {
    let mut frames = vec![response(5, 0x12, &[0xC4, 9, 0])];
    frames.extend(vec![response(5, 0x12, &[0x90, 0x5F, 1, 0, 0, 0]); 200]);
    frames.push(response(5, 0x12, &[0xC4, 9, 0, 0, 0, 0]));
    let capture = file("kinds.pcap", &pcap(false, false, &frames));
    let run = run(&["replay", "--quiet", &rig("ramp.rig"), &capture]);
    let wanted = r#"sender  frames  not ready  fields written  CUT  short
     5     202          0             402  200      1
        CUT in 200 frames, first in No. 2: 6000h/0 "Ramp time": element 1's field is 90 5F 01 00, 90000 ms = 90.000 s; the last 2 bytes, 01 00, are lost
        short in No. 1: stopped at element 1 (6000h/0 "Ramp time"): it needs 4 bytes of payload, and 3 came
"#;
    assert_eq!((run.status, run.out.as_str()), (1, wanted));
}

/// Two frames of a ramp each, in all forms of capture.
fn ramps() -> Vec<Vec<u8>> {
    vec![response(5, 0x12, &[0xC4, 9, 0, 0, 0, 0]), response(5, 0x12, &[0xB8, 0xB, 0, 0, 0, 0])]
}

fn assert_ramps(name: &str, capture: &[u8]) {
    let run = run(&["replay", &rig("ramp.rig"), &file(name, capture)]);
    assert_eq!((run.status, run.err.as_str()), (0, ""), "{name}");
    assert!(run.out.contains("0 ms = 0.000 s -> 2500 ms = 2.500 s"), "{}: {}", name, run.out);
    assert!(run.out.contains("2500 ms = 2.500 s -> 3000 ms = 3.000 s"), "{}: {}", name, run.out);
    assert!(
        run.out.contains("     5       2          0               4\n"),
        "{}: {}",
        name,
        run.out
    );
}

#[test]
fn classic_captures_in_four_forms() {
    for (big, nanoseconds, time) in [
        (false, false, "1.500000 s"),
        (true, false, "1.500000 s"),
        (false, true, "1.000500 s"),
        (true, true, "1.000500 s"),
    ] {
        let name = format!("ramps-{big}-{nanoseconds}.pcap");
        let capture = pcap(big, nanoseconds, &ramps());
        assert_ramps(&name, &capture);
        let told = run(&["replay", &rig("ramp.rig"), &file(&name, &capture)]).out;
        assert!(told.contains(&format!("No. 2  {time}  PRes")), "{}", told);
    }
}

#[test]
fn newer_captures_in_both_orders() {
    let frames = ramps();
    for big in [false, true] {
        let start = [section(big), interface(big, 1, 6)].concat();
        let enhanced = [packet(big, false, 0, 1, &frames[0]), packet(big, false, 0, 2, &frames[1])];
        assert_ramps(
            &format!("enhanced-{big}.pcapng"),
            &[start.clone(), enhanced.concat()].concat(),
        );
        let simple = [simple_packet(big, &frames[0]), simple_packet(big, &frames[1])];
        assert_ramps(&format!("simple-{big}.pcapng"), &[start.clone(), simple.concat()].concat());
        let obsolete = [packet(big, true, 0, 1, &frames[0]), packet(big, true, 0, 2, &frames[1])];
        assert_ramps(&format!("obsolete-{big}.pcapng"), &[start, obsolete.concat()].concat());
    }
}

#[test]
fn several_sections_interfaces_and_unknown_blocks() {
    let frames = ramps();
    let capture = [
        section(false),
        common::captures::block(false, 0x0BAD, &[1, 2, 3]),
        interface(false, 127, 6),
        interface(false, 1, 9),
        packet(false, false, 0, 0, &frames[1]),
        packet(false, false, 1, 1_000_000, &frames[0]),
        section(true),
        interface(true, 1, 6),
        packet(true, false, 0, 3_000, &frames[1]),
    ];
    let path = file("sections.pcapng", &capture.concat());
    let run = run(&["replay", &rig("ramp.rig"), &path]);
    assert!(run.out.contains("No. 2  0.001000 s  PRes"), "{}", run.out);
    assert!(run.out.contains("No. 3  0.003000 s  PRes"), "{}", run.out);
    assert!(run.out.contains("other frames: 1 not Ethernet (link type 127)\n"), "{}", run.out);
}

#[test]
fn an_interface_may_shift_its_times() {
    let frames = ramps();
    for big in [false, true] {
        let capture = [
            section(big),
            interface(big, 1, 6),
            interface_behind(big, 1, 9, -2),
            packet(big, false, 0, 1_000_000, &frames[0]),
            packet(big, false, 1, 4_000_000_000, &frames[1]),
        ];
        let path = file(&format!("shifted-{big}.pcapng"), &capture.concat());
        let run = run(&["replay", &rig("ramp.rig"), &path]);
        assert!(run.out.contains("No. 2  1.000000 s  PRes"), "{}", run.out);
    }
}

#[test]
fn damage_is_told_with_its_place() {
    let good = pcap(false, false, &ramps());
    let newer =
        [section(false), interface(false, 1, 6), packet(false, false, 0, 1, &ramps()[0])].concat();
    let mut huge = good.clone();
    huge[32..36].copy_from_slice(&u32::MAX.to_le_bytes());
    let mut trailer = newer.clone();
    *trailer.last_mut().unwrap() = 1;
    let mut order = newer.clone();
    order[8] = 0;
    for (name, capture, wanted) in [
        ("empty", &[][..], "byte 0: the capture is empty"),
        ("text", b"hello, this is no capture", "byte 0: the file is neither a pcap nor a pcapng capture"),
        ("packed", &[0x1F, 0x8B, 8, 0, 0], "byte 0: the file is compressed (gzip)"),
        ("head", &good[..10], "byte 10: the file ends inside the capture's header that begins at byte 0"),
        ("packet-head", &good[..30], "byte 30: the file ends inside the header of packet 1 that begins at byte 24"),
        ("packet", &good[..60], "byte 60: the file ends inside packet 1 that begins at byte 24: 30 bytes needed, 20 there"),
        ("huge", &huge, "byte 32: packet 1 says it has 4294967295 bytes"),
        ("block", &newer[..newer.len() - 6], "the file ends inside the block that begins at byte 60"),
        ("trailer", &trailer, "the block that begins at byte 60 has length"),
        ("order", &order, "byte 8: expected the byte-order mark of a pcapng section"),
    ] {
        let run = run(&["replay", &rig("ramp.rig"), &file(&format!("damaged-{name}"), capture)]);
        assert_eq!(run.status, 2, "{name}");
        assert!(run.err.contains(wanted), "{}: {}", name, run.err);
    }
}

#[test]
fn what_came_before_the_damage_is_told() {
    let good = pcap(false, false, &ramps());
    let path = file("half.pcap", &good[..good.len() - 3]);
    let run = run(&["replay", &rig("ramp.rig"), &path]);
    assert_eq!(run.status, 2);
    assert!(run.out.contains("0 ms = 0.000 s -> 2500 ms = 2.500 s"), "{}", run.out);
    assert!(run.out.contains("     5       1          0               2\n"), "{}", run.out);
}

#[test]
fn a_frame_that_ends_before_its_sender_is_a_fault() {
    let capture = pcap(false, false, &[ramps()[0][..16].to_vec()]);
    let run = run(&["replay", &rig("ramp.rig"), &file("sender.pcap", &capture), "--quiet"]);
    let wanted = "sender  frames  not ready  fields written  damaged
     ?       1          0               0        1
        damaged in No. 1: not consumed: the frame ends after 2 bytes of its head
";
    assert_eq!((run.status, run.out.as_str()), (1, wanted));
}

/// The same Ethernet frames behind a cooked head.
fn cooked(newer: bool, frames: &[Vec<u8>]) -> Vec<Vec<u8>> {
    let head = |frame: &Vec<u8>| match newer {
        true => [&frame[12..14], &[0; 18], &frame[14..]].concat(),
        false => [&[0; 14], &frame[12..]].concat(),
    };
    frames.iter().map(head).collect()
}

#[test]
fn cooked_captures() {
    for (link, newer) in [(113, false), (276, true)] {
        let frames = cooked(newer, &ramps());
        assert_ramps(&format!("cooked-{link}.pcap"), &pcap_of(link, false, false, &frames));
        let newer = [
            section(false),
            interface(false, link as u16, 6),
            packet(false, false, 0, 1, &frames[0]),
            packet(false, false, 0, 2, &frames[1]),
        ];
        assert_ramps(&format!("cooked-{link}.pcapng"), &newer.concat());
    }
}

#[test]
fn a_capture_in_which_nothing_was_looked_at() {
    let mut not_ready = ramps()[0].clone();
    not_ready[18] = 0;
    let foreign = [vec![0; 12], vec![8, 0, 0x45, 0]].concat();
    for (name, capture, why) in [
        ("none", pcap(false, false, &[]), "the capture has no packet"),
        ("link", pcap_of(127, false, false, &ramps()), "no packet was captured on an Ethernet"),
        ("foreign", pcap(false, false, &[foreign]), "no frame carries process data (PReq or PRes)"),
        (
            "sender",
            pcap(false, false, &[response(9, 0x12, &[0; 6])]),
            "no channel of the rig takes a sender of these frames",
        ),
        (
            "waiting",
            pcap(false, false, &[not_ready]),
            "no frame of a sender that the rig takes was ready",
        ),
        (
            "requests",
            pcap(false, false, &[request(1, 0, &[]), request(2, 0, &[])]),
            "all frames with process data were left out",
        ),
    ] {
        let run = run(&["replay", &rig("ramp.rig"), &file(&format!("nothing-{name}"), &capture)]);
        let wanted = format!("nothing was looked at: {why}\n");
        assert!(run.out.contains(&wanted), "{}: {}", name, run.out);
        assert_eq!(run.status, 3, "{name}");
    }
}

#[test]
fn a_channel_without_a_mapping_looks_at_nothing() {
    let rig = file("unmapped.rig", b"1400h Record\n1 U8 = 5\n2 U8 = 10h\n6000h Variable U16\n");
    let run = run(&["replay", &rig, &file("unmapped.pcap", &pcap(false, false, &ramps()))]);
    assert!(run.out.contains("channel 0 has no mapping: nothing happens\n"), "{}", run.out);
    let wanted = "nothing was looked at: the channels that take these frames have no mapping\n";
    assert!(run.out.ends_with(wanted), "{}", run.out);
    assert_eq!(run.status, 3);
}

#[test]
fn requests_come_from_the_managing_node() {
    let text = "1400h Record\n1 U8 = 0\n1600h Array\n1 6000h at 0 length 1\n6000h Variable U8\n";
    let rig = file("request.rig", text.as_bytes());
    let capture =
        file("request.pcap", &pcap(false, false, &[request(1, 0, &[7]), request(2, 0, &[8])]));
    let all = run(&["replay", &rig, &capture]);
    assert!(!all.out.contains("6000h/0"), "{}", all.out);
    let note = "note: PReq frames went to nodes 1, 2 and were left out: --node N says which of them the rig is\n";
    assert!(all.out.starts_with("other frames: 2 PReq\n"), "{}", all.out);
    assert!(all.out.ends_with(note), "{}", all.out);
    let one = run(&["replay", &rig, &capture, "--node", "2"]);
    assert!(
        one.out.contains(
            "PReq from the managing node (240), version 0.0 (00h), 1 byte\n    6000h/0: 0 -> 8\n"
        ),
        "{}",
        one.out
    );
    assert!(one.out.contains("other frames: 1 PReq to other nodes\n"), "{}", one.out);
    assert!(!one.out.contains("note:"), "{}", one.out);
    let single = pcap(false, false, &[request(1, 0, &[7]), request(1, 0, &[8])]);
    let single = run(&["replay", &rig, &file("single.pcap", &single)]);
    assert!(single.out.contains("6000h/0: 7 -> 8\n"), "{}", single.out);
}

#[test]
fn other_frames_have_their_names() {
    let head = vec![0; 12];
    let llc = [head.clone(), vec![0, 46], vec![0x42; 46]].concat();
    let active = [head, vec![0x88, 0xAB, 7, 255, 240]].concat();
    let capture = file("others.pcap", &pcap(false, false, &[llc, active, ramps()[0].clone()]));
    let run = run(&["replay", &rig("ramp.rig"), &capture]);
    assert!(run.out.ends_with("other frames: 1 AMNI, 1 LLC\n"), "{}", run.out);
}

#[test]
fn a_node_does_not_hear_itself() {
    let text = "1400h Record\n1 U8 = 5\n1600h Array\n1 6000h at 0 length 1\n6000h Variable U8\n";
    let rig = file("own.rig", text.as_bytes());
    let frames = [response(5, 0, &[7]), response(6, 0, &[8]), request(5, 0, &[])];
    let capture = file("own.pcap", &pcap(false, false, &frames));
    let run = run(&["replay", &rig, &capture, "--node", "5", "--quiet"]);
    assert!(run.out.contains("other frames: 1 PRes of node 5 itself\n"), "{}", run.out);
    assert!(!run.out.contains("\n     5 "), "{}", run.out);
}

#[test]
fn requests_through_a_pipe_need_the_node() {
    let text = "1400h Record\n1 U8 = 0\n1600h Array\n1 6000h at 0 length 1\n6000h Variable U8\n";
    let rig = file("pipe.rig", text.as_bytes());
    let capture = file("pipe.pcap", &pcap(false, false, &[request(1, 0, &[7])]));
    let replay = |options: &[&str]| {
        let output = Command::new(env!("CARGO_BIN_EXE_loomfinch"))
            .args(["replay", &rig, "-"])
            .args(options)
            .stdin(std::fs::File::open(&capture).unwrap())
            .output();
        String::from_utf8_lossy(&output.unwrap().stdout).into_owned()
    };
    let note = "note: PReq frames went to node 1 and were left out, since a pipe does not say beforehand where they go";
    let all = replay(&[]);
    assert!(all.contains(note) && !all.contains("6000h/0"), "{all}");
    let one = replay(&["--node", "1"]);
    assert!(one.contains("6000h/0: 0 -> 7\n") && !one.contains("note:"), "{one}");
}

#[test]
fn the_capture_may_come_through_a_pipe() {
    let output = Command::new(env!("CARGO_BIN_EXE_loomfinch"))
        .args(["replay", &rig("ramp.rig"), "-", "--quiet"])
        .stdin(std::fs::File::open(rig("rehearsal.pcap")).unwrap())
        .output()
        .unwrap();
    assert_eq!(String::from_utf8_lossy(&output.stdout).lines().count(), 9);
}
