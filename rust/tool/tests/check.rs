//! `loomfinch check`.

mod common;

use common::{file, rig, run};

#[test]
fn the_ramp_is_cut() {
    let run = run(&["check", &rig("ramp.rig")]);
    assert_eq!(run.status, 1);
    let wanted = "channel 0, from node 5, 2 elements: FAULT: element 1 maps 4 bytes onto 6000h/0 \"Ramp time\", an \
                  Unsigned16 of 2 bytes: the last 2 bytes would be lost\n\
                  note: channel 0: elements 1 and 2 share bytes 2 to 3 of the payload\n";
    assert_eq!(run.out, wanted);
}

#[test]
fn the_mended_ramp_passes() {
    let run = run(&["check", &rig("mended.rig")]);
    assert_eq!((run.status, run.out.as_str()), (0, "channel 0, from node 5, 2 elements: pass\n"));
}

#[test]
fn every_fault_has_its_sentence() {
    let run = run(&["check", &rig("faults.rig")]);
    assert_eq!(run.status, 1);
    let lines: Vec<&str> = run.out.lines().filter(|line| !line.starts_with("note: ")).collect();
    let wanted = [
        "channel 0, from node 1, 2 elements: pass",
        "channel 1, from no node, 1 element: FAULT: no sender: channel 0 takes node 1 before it",
        "channel 2, from no node, 0 elements: FAULT: no sender: 1402h/1 is an Unsigned16, not an Unsigned8",
        "channel 3, from node 3, 0 elements: FAULT: no mapping: there is no 1603h",
        "channel 4, from node 4, 2 elements: FAULT: element 2 is an Unsigned32, not an Unsigned64, and maps nothing",
        "channel 5, from node 5, 1 element: FAULT: element 1 maps 12 bits from bit 4 on onto 6000h/0 \"Ramp time\": ",
        "channel 6, from node 6, 1 element: FAULT: element 1 maps onto 1200h/1, which belongs to SDO: ",
        "channel 7, from node 7, 1 element: FAULT: element 1 maps onto 6200h/4 \"Move times\", and 6200h has 3 elements",
        "channel 8, from node 8, 1 element: FAULT: element 1 maps onto 6200h/0 \"Move times\", the count of the list's",
        "channel 9, from node 9, 1 element: FAULT: element 1 maps 4 bytes onto 6000h/0 \"Ramp time\", an Unsigned16",
        "channel 10, from node 10, 1 element: FAULT: element 1 maps 1 byte onto 6000h/0 \"Ramp time\", an Unsigned16 of \
         2 bytes: 1 byte is missing, so every payload stops there",
        "channel 11, from node 11, 1 element: FAULT: element 1 maps 41 bytes onto 6100h/0 \"Caption\", a VisibleString \
         with room for 40 bytes",
        "channel 12, from node 12, 1 element: FAULT: element 1 maps 7 bytes onto 6101h/0 \"Titre\", a UnicodeString",
        "channel 13, from the managing node (240), 2 elements: FAULT: element 2 needs a payload of 1491 bytes",
    ];
    assert_eq!(lines.len(), wanted.len());
    for (line, wanted) in lines.iter().zip(wanted) {
        assert!(line.starts_with(wanted), "{line}\nwanted {wanted}");
    }
}

#[test]
fn the_json_names_every_fault() {
    let run = run(&["check", &rig("faults.rig"), "--json", "--explain"]);
    assert_eq!(run.status, 1);
    for (name, number) in [
        ("NoSender", 31),
        ("NoList", 32),
        ("NotMapping", 33),
        ("Misaligned", 34),
        ("HandOff", 35),
        ("NoTarget", 36),
        ("CountTarget", 37),
        ("WrongLength", 38),
        ("TooFar", 39),
    ] {
        let wanted = format!("\"name\": \"{name}\",\n        \"number\": {number},");
        assert!(run.out.contains(&wanted), "{}", name);
    }
    for target in ["value", "string", "count", "no object", "no sub-index"] {
        assert!(run.out.contains(&format!("\"kind\": \"{target}\"")), "{}", target);
    }
}

#[test]
fn the_json_of_the_ramp() {
    let text = "6000h Variable U16 \"a \\\"b\\\" \\\\ é\"\n1400h Record\n1 U8 = 5\n1600h Array\n1 6000h at 0 length 4\n";
    let path = file("quotes.rig", text.as_bytes());
    let run = run(&["check", "--json", &path]);
    let wanted = r#"  "pass": false,
  "channels": [
    {
      "channel": 0,
      "sender": 5,
      "elements": 1,
      "pass": false,
      "fault": {
        "name": "WrongLength",
        "number": 38,
        "element": 1,
        "text": "element 1 maps 4 bytes onto 6000h/0 \"a \\\"b\\\" \\\\ é\", an Unsigned16 of 2 bytes: the last 2 bytes would be lost"
      },
      "in_use": 1
    }
  ],
  "notes": [],
  "noted": [],
  "edition": 1
}
"#;
    assert!(run.out.ends_with(wanted), "{}", run.out);
    assert_eq!(run.status, 1);
}

#[test]
fn names_are_shown_as_they_are_written() {
    let text = "1400h Record\n1 U8 = 5\n1600h Array\n1 6000h at 0 length 4\n6000h Variable U16 \"Durée d'accélération\"\n";
    let run = run(&["check", &file("apostrophe.rig", text.as_bytes())]);
    assert!(
        run.out.contains("onto 6000h/0 \"Durée d'accélération\", an Unsigned16"),
        "{}",
        run.out
    );
}

#[test]
fn the_drawing_shows_what_is_cut_and_shared() {
    let run = run(&["check", "--explain", &rig("ramp.rig")]);
    let wanted = r#"
         byte   0  1  2  3  4  5
    element 1  [=====xxxxx]        6000h/0 "Ramp time"
    element 2        [==========]  6200h/3 "Move times"
      overlap        ~~~~~~
               = kept   x lost   ~ in more than one element

    element 1 maps 4 bytes onto 6000h/0 "Ramp time", an Unsigned16 of 2 bytes: the last 2 bytes would be lost
    element 2 maps 4 bytes onto 6200h/3 "Move times", an Unsigned32 of 4 bytes: whole
"#;
    assert!(run.out.contains(wanted), "{}", run.out);
}

#[test]
fn long_payloads_are_drawn_in_bands() {
    let text = "1400h Record\n1 U8 = 5\n1600h Array\n1 6000h at 20 length 200\n2 6001h at 0 length 0\n3 1200h at 0 length 1\n\
                4 6002h at 1 bits length 3 bits\n6000h Variable Domain room 200\n6001h Variable Domain room 1\n";
    let run = run(&["check", "--explain", &file("bands.rig", text.as_bytes())]);
    let wanted = r#"
         byte   0   1   2   3   4   5   6   7   8   9
    element 3  [ss]                                      1200h/0
    element 4  [??]                                      6002h/0
      overlap  ~~~~
         byte   10  11  12  13  14  15  16  17  18  19
   no element
         byte   20  21  22  23  24  25  26  27  28  29
    element 1  [=======================================  6000h/0
         byte   30  31  32  33  34  35  36  37  38  39
    element 1  ========================================
     the same  up to byte 209
         byte  210 211 212 213 214 215 216 217 218 219
    element 1  =======================================]
"#;
    assert!(run.out.contains(wanted), "{}", run.out);
}

#[test]
fn what_no_payload_reaches_is_drawn_so() {
    let text =
        "1400h Record\n1 U8 = 5\n1600h Array\n1 6000h at 0 length 1\n2 6001h at 1 length 1\n\
                6000h Variable U16\n6001h Variable U8\n";
    let short = run(&["check", "--explain", &file("short.rig", text.as_bytes())]);
    let wanted = r#"
         byte   0  1
    element 1  [x]     6000h/0
    element 2     [-]  6001h/0
               x lost   - never reached

    element 1 maps 1 byte onto 6000h/0, an Unsigned16 of 2 bytes: 1 byte is missing, so every payload stops there
    element 2 maps 1 byte onto 6001h/0, an Unsigned8 of 1 byte: never reached, since every payload stops at element 1
"#;
    assert!(short.out.contains(wanted), "{}", short.out);
    let text = "1400h Record\n1 U8 = 5\n1600h Array\n1 6000h at 1490 length 1\n6000h Variable U8\n";
    let far = run(&["check", "--explain", &file("far.rig", text.as_bytes())]);
    assert!(
        far.out.contains(
            "an Unsigned8 of 1 byte: it needs a payload of 1491 bytes, and none has more than 1490: every payload stops \
             there\n"
        ),
        "{}",
        far.out
    );
    assert!(far.out.contains("x lost\n"), "{}", far.out);
}

#[test]
fn too_far_names_the_first_element_that_is() {
    let text = "1400h Record\n1 U8 = 5\n1600h Array\n1 6000h at 0 length 1\n2 6001h at 1490 length 1\n\
                3 6002h at 1492 length 2\n6000h Variable U8\n6001h Variable U8\n6002h Variable U16\n";
    let path = file("farther.rig", text.as_bytes());
    let explained = run(&["check", "--explain", &path]).out;
    let wanted =
        "element 2 needs a payload of 1491 bytes, and none has more than 1490: every payload stops there";
    assert!(explained.contains(&format!("FAULT: {wanted}\n")), "{explained}");
    let later = "element 3 maps 2 bytes onto 6002h/0, an Unsigned16 of 2 bytes: never reached, since every payload stops at \
                 element 2\n";
    assert!(explained.contains(later), "{explained}");
    let text = text.replace("6002h at 1492", "6002h at 0");
    let text = text.replace("3 6002h at 0 length 2", "3 6002h at 0 length 4");
    let behind = run(&["check", &file("far-and-wrong.rig", text.as_bytes())]).out;
    let why = "element 3 maps 4 bytes onto 6002h/0, an Unsigned16 of 2 bytes: never reached, since every payload stops at element 2, \
               which needs a payload of 1491 bytes, and none has more than 1490\n";
    assert!(behind.contains(why), "{behind}");
    let json = run(&["check", "--json", &path]).out;
    let wanted = format!("\"name\": \"TooFar\",\n        \"number\": 39,\n        \"element\": 2,\n        \"text\": \"{wanted}\"");
    assert!(json.contains(&wanted), "{json}");
}

#[test]
fn what_is_never_reached_is_told_so() {
    let text = "1400h Record\n1 U8 = 5\n1600h Array\n1 6000h at 0 length 1\n2 6000h at 1489 length 2\n\
                3 6001h at 0 length 1\n4 6003h at 0 length 1\n5 6002h at 0 length 3\n6 6004h at 0 length 1\n\
                7 6000h at 0 bits length 3 bits\n8 6000h at 0 length 1\n6000h Variable U8\n6001h Variable U16\n\
                6002h Variable VisibleString room 2\n";
    let run = run(&["check", "--explain", &file("unreached.rig", text.as_bytes())]);
    let behind = "never reached, since every payload stops at element 2";
    for wanted in [
        "element 2 maps 2 bytes onto 6000h/0, an Unsigned8 of 1 byte: it needs a payload of 1491 bytes, and none has \
         more than 1490: every payload stops there",
        &format!("element 3 maps 1 byte onto 6001h/0, an Unsigned16 of 2 bytes: {behind}"),
        &format!("element 4 maps onto 6003h/0, and there is no object 6003h: {behind}"),
        &format!("element 5 maps 3 bytes onto 6002h/0, a VisibleString with room for 2 bytes: {behind}"),
        &format!("element 7 maps 3 bits from bit 0 on onto 6000h/0: {behind}"),
        &format!("element 8 maps 1 byte onto 6000h/0, an Unsigned8 of 1 byte: {behind}"),
    ] {
        assert!(run.out.contains(&format!("\n    {wanted}\n")), "{wanted}\n{}", run.out);
    }
    for false_words in
        ["the later one stands", "passed over", "nothing would be written", "lost\n    e"]
    {
        assert!(!run.out.contains(false_words), "{false_words}\n{}", run.out);
    }
}

#[test]
fn what_is_no_fault_is_noted() {
    let text = "1400h Record\n1 U8 = 5\n2 U16 = 10h\n1600h Array\n1 6000h at 0 length 1\n2 6000h at 0 length 1\n\
                6000h Variable U8\n";
    let run = run(&["check", &file("notes.rig", text.as_bytes())]);
    let wanted = "channel 0, from node 5, 2 elements: pass
note: channel 0: 1400h/2 is an Unsigned16, not an Unsigned8: payloads of version 0.0 (00h) alone are taken
note: channel 0: elements 1 and 2 share byte 0 of the payload
note: channel 0: elements 1 and 2 both map onto 6000h/0: the later one stands
";
    assert_eq!((run.status, run.out.as_str()), (0, wanted));
}

#[test]
fn a_channel_that_maps_onto_itself_is_noted() {
    let text = "1401h Record\n1 U8 = 5\n1601h Array\n1 1401h/1 at 0 length 1\n";
    let run = run(&["check", &file("itself.rig", text.as_bytes())]);
    let wanted = "channel 1, from node 5, 1 element: pass
note: channel 1: element 1 maps onto 1401h/1, a record of the channel itself: a payload may change what the next ones do
";
    assert_eq!((run.status, run.out.as_str()), (0, wanted));
}

/// Two drives write one move time, the second also what a payload should not.
const TWO_CHANNELS: &str = "1400h Record\n1 U8 = 5\n1600h Array\n1 6000h at 0 length 2\n1401h Record\n1 U8 = 7\n1601h Array\n\
                            1 6001h at 0 length 1\n2 6000h at 1 length 2\n3 1010h/1 at 3 length 1\n4 6002h at 4 length 1\n\
                            1402h Record\n1 U8 = 7\n1602h Array\n1 6000h at 0 length 2\n1010h Array\n1 U8\n\
                            6000h Variable U16 \"Move\"\n6001h Variable U8 ro\n6002h Variable U8 const\n";

#[test]
fn what_two_channels_write_is_noted() {
    let path = file("two.rig", TWO_CHANNELS.replace("1402h", "1502h").as_bytes());
    let found = run(&["check", &path]);
    let wanted = r#"channel 0, from node 5, 1 element: pass
channel 1, from node 7, 4 elements: pass
note: channel 1: element 1 maps onto 6001h/0, which is ReadOnly: payloads change it all the same
note: channel 1: element 3 maps onto 1010h/1, which takes a plain value from a payload: nothing is saved
note: channel 1: element 4 maps onto 6002h/0, which is Constant: payloads change it all the same
note: channels 0 and 1 both map onto 6000h/0 "Move" (elements 1 and 2): of node 5 and node 7 the last to arrive stands
note: nothing uses the mapping 1602h: there is no 1402h that names its sender
"#;
    assert_eq!((found.status, found.out.as_str()), (0, wanted));
    assert_eq!(run(&["check", "--strict", &path]).status, 1);
    assert_eq!(run(&["check", "--strict", &rig("mended.rig")]).status, 0);
    let json = run(&["check", "--json", &path]).out;
    let wanted = r#"    {
      "kind": "TwoChannels",
      "channel": 1,
      "element": 2,
      "other": {
        "channel": 0,
        "element": 1
      },
      "text": "channels 0 and 1 both map onto 6000h/0 \"Move\" (elements 1 and 2): of node 5 and node 7 the last to arrive stands"
    },
"#;
    assert!(json.contains(wanted), "{json}");
    assert!(json.contains("\"kind\": \"StoreTarget\""), "{json}");
}

#[test]
fn a_channel_that_takes_no_payload_writes_nothing() {
    let run = run(&["check", &file("untaken.rig", TWO_CHANNELS.as_bytes())]);
    assert!(!run.out.contains("channels 0 and 2"), "{}", run.out);
    assert!(!run.out.contains("channels 1 and 2"), "{}", run.out);
    let mapping = "1 6001h at 0 length 1\n2 6001h at 0 length 1\n3 1402h/1 at 1 length 1\n4 1011h/1 at 2 length 1\n1011h Array\n1 U8\n";
    let text = TWO_CHANNELS
        .replace("1602h Array\n1 6000h at 0 length 2\n", &format!("1602h Array\n{mapping}"))
        .replace("1402h Record\n1 U8 = 7\n", "1402h Record\n1 U8 = 7\n2 U16 = 10h\n");
    let untaken = common::run(&["check", &file("untaken-2.rig", text.as_bytes())]).out;
    let of_it: Vec<&str> =
        untaken.lines().filter(|line| line.starts_with("note: channel 2")).collect();
    assert_eq!(of_it, ["note: channel 2: elements 1 and 2 share byte 0 of the payload"]);
    // The same where payloads come.
    let text = text.replace("1402h Record\n1 U8 = 7", "1402h Record\n1 U8 = 9");
    let taken = common::run(&["check", &file("taken-2.rig", text.as_bytes())]).out;
    for wanted in [
        "1402h/2 is an Unsigned16, not an Unsigned8: payloads of version 0.0 (00h) alone are taken",
        "element 2 maps onto 6001h/0, which is ReadOnly: payloads change it all the same",
        "elements 1 and 2 both map onto 6001h/0: the later one stands",
        "element 3 maps onto 1402h/1, a record of the channel itself",
        "element 4 maps onto 1011h/1, which takes a plain value from a payload: nothing is restored",
    ] {
        assert!(taken.contains(&format!("note: channel 2: {wanted}")), "{wanted}\n{taken}");
    }
}

#[test]
fn a_rig_without_channels_says_so() {
    let text = b"6000h Variable U8\n1601h Array\n1C81h Variable U8\n";
    let run = run(&["check", &file("none.rig", text)]);
    assert_eq!(run.status, 0);
    for wanted in [
        "no channel: the rig has no object from 1400h to 14FFh",
        "note: nothing uses the mapping 1601h: there is no 1401h",
        "note: 1C81h cannot note every node",
    ] {
        assert!(run.out.contains(wanted), "{}", run.out);
    }
    let json = common::run(&["check", "--json", &file("none.rig", text)]);
    assert!(json.out.contains("\"notes\": [\n    \"no channel: the rig has"), "{}", json.out);
}

#[test]
fn rigs_that_are_damaged_missing_or_empty() {
    let damaged = file("damaged.rig", b"# one\n6000h Variable Unsigned16 = 65536\nwinch\n");
    for (path, wanted) in [
        (
            damaged.clone(),
            format!(
                "{damaged}:2:29: expected a number from 0 to 65535 for an Unsigned16, found '65536'\nloomfinch: {damaged}:3:1: expected"
            ),
        ),
        (file("empty.rig", b""), "expected at least one object".to_string()),
        (file("bytes.rig", &[0xFF, 0xFE, 0]), ":1:1: expected text in UTF-8".to_string()),
        (rig("no-such.rig"), "No such file".to_string()),
        (rig("."), "irectory".to_string()),
        (rig("rehearsal.pcap"), ":1:1: expected text in UTF-8".to_string()),
        (
            file("large.rig", &vec![b'#'; (4 << 20) + 1]),
            "expected a rig file of at most".to_string(),
        ),
    ] {
        let run = run(&["check", &path]);
        assert_eq!((run.status, run.out.as_str()), (2, ""), "{path}");
        assert!(run.err.contains(&wanted), "{}", run.err);
    }
}
