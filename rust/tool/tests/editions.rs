//! Rigs of edition 2: counts that are kept, elements that are not in use, channels that are off.

mod common;

use common::captures::{pcap, response};
use common::{file, rig, run, Run};

/// A channel of three elements, all in use.
const THREE: &str = "edition 2
1400h Record
  1 Unsigned8 = 5
1600h Array
  1 6000h/0 at 0 length 2
  2 6001h/0 at 2 length 2
  3 6002h/0 at 4 length 2
1C80h Variable OctetString = [00 * 32]
1C81h Variable OctetString = [00 * 32]
6000h Variable Unsigned16
6001h Variable Unsigned16
6002h Variable Unsigned16
";

fn consume(rig: &str, version: &str, payload: &str) -> Run {
    run(&["consume", rig, "--from", "5", "--version", version, payload])
}

#[test]
fn the_check_says_how_many_elements_are_in_use() {
    let found = run(&["check", &rig("edition2.rig")]);
    let wanted = r#"channel 0, from node 5 "Winch", 2 of 3 elements in use: pass
channel 1, from node 6 "Fly bar", 0 of 1 element in use: FAULT: the channel is off, since the count of 1601h is 0: payloads write nothing
"#;
    assert_eq!((found.status, found.out.as_str()), (1, wanted));
    let all = run(&["check", &file("three.rig", THREE.as_bytes())]);
    let wanted = "channel 0, from node 5, 3 elements: pass\n";
    assert_eq!((all.status, all.out.as_str()), (0, wanted));
}

#[test]
fn the_json_has_the_numbers() {
    let json = run(&["check", "--json", &rig("edition2.rig")]).out;
    let wanted = r#"
      "elements": 3,
      "pass": true,
      "fault": null,
      "in_use": 2
    },
"#;
    assert!(json.contains(wanted), "{json}");
    assert!(json.contains("\"name\": \"NoList\",\n        \"number\": 32,"), "{json}");
    assert!(json.contains("\n      \"in_use\": 0\n"), "{json}");
    assert!(json.ends_with("\n  \"edition\": 2\n}\n"), "{json}");
    let explained = run(&["check", "--json", "--explain", &rig("edition2.rig")]).out;
    let last = r#"          "element": 3,
          "type": "Unsigned64",
          "fault": null,
"#;
    assert!(explained.contains(last), "{explained}");
    let marks = |mark: &str| explained.matches(&format!("\"in_use\": {mark}\n")).count();
    assert_eq!((marks("true"), marks("false")), (2, 2), "{explained}");
    assert!(!explained.contains("WrongLength"), "{explained}");
}

#[test]
fn elements_that_are_not_in_use_are_drawn_so() {
    let run = run(&["check", "--explain", &rig("edition2.rig")]);
    let wanted = r#"
         byte   0  1  2  3  4  5  6  7
    element 1  [====]                    6000h/0 "Ramp time"
    element 2        [==========]        6200h/1 "Move times"
    element 3                    [....]  6200h/2 "Move times"
               = kept   . not in use

    element 1 maps 2 bytes onto 6000h/0 "Ramp time", an Unsigned16 of 2 bytes: whole
    element 2 maps 4 bytes onto 6200h/1 "Move times", an Unsigned32 of 4 bytes: whole
    element 3 maps 2 bytes onto 6200h/2 "Move times", an Unsigned32 of 4 bytes: not in use, since the count of 1600h is 2
"#;
    assert!(run.out.contains(wanted), "{}", run.out);
    let off = "element 1 maps 4 bytes onto 6200h/3 \"Move times\", an Unsigned32 of 4 bytes: not in use, since the count of \
               1601h is 0\n";
    assert!(run.out.contains(off), "{}", run.out);
}

#[test]
fn no_fault_and_no_note_is_drawn_from_them() {
    let text = "edition 2\n1400h Record\n1 U8 = 5\n1600h Array count 1\n1 6000h at 0 length 2\n2 U32\n\
                3 6000h at 4 bits length 3 bits\n4 1200h/1 at 0 length 2\n5 6009h at 0 length 2\n6 6200h/4 at 0 length 2\n\
                7 6200h/0 at 0 length 1\n8 6000h at 0 length 1\n9 6000h at 1490 length 2\n10 6000h at 0 length 2\n\
                6000h Variable U16 ro\n6200h Array\n1..3 U8\n";
    let path = file("unused.rig", text.as_bytes());
    let plain = run(&["check", "--strict", &path]);
    let wanted = "channel 0, from node 5, 1 of 10 elements in use: pass
note: channel 0: element 1 maps onto 6000h/0, which is ReadOnly: payloads change it all the same
";
    assert_eq!((plain.status, plain.out.as_str()), (1, wanted));
    let explained = run(&["check", "--explain", &path]).out;
    for (element, wanted) in (2..).zip([
        "is an Unsigned32, not an Unsigned64, and maps nothing",
        "maps 3 bits from bit 4 on onto 6000h/0",
        "maps onto 1200h/1, which belongs to SDO",
        "maps onto 6009h/0, and there is no object 6009h",
        "maps onto 6200h/4, and 6200h has 3 elements",
        "maps onto 6200h/0, the count of the list's elements",
        "maps 1 byte onto 6000h/0, an Unsigned16 of 2 bytes",
        "maps 2 bytes onto 6000h/0, an Unsigned16 of 2 bytes",
        "maps 2 bytes onto 6000h/0, an Unsigned16 of 2 bytes",
    ]) {
        let line = format!(
            "\n    element {element} {wanted}: not in use, since the count of 1600h is 1\n"
        );
        assert!(explained.contains(&line), "{line}\n{explained}");
    }
    for false_words in ["overlap", "lost", "never reached", "passed over", "not whole bytes"] {
        assert!(!explained.contains(false_words), "{false_words}\n{explained}");
    }
}

#[test]
fn payloads_are_not_written_by_them() {
    let found = run(&[
        "consume",
        &rig("edition2.rig"),
        "--from",
        "5",
        "--version",
        "1.0",
        "C40910270000",
        "C409",
    ]);
    let wanted = r#"payload 1: 6 bytes from node 5 "Winch", version 1.0 (10h)
  6000h/0 "Ramp time": 0 ms = 0.000 s -> 2500 ms = 2.500 s
  6200h/1 "Move times": 0 ms = 0.000 s -> 10000 ms = 10.000 s
  element 3 (6200h/2 "Move times") is not in use, since the count of 1600h is 2
payload 2: 2 bytes from node 5 "Winch", version 1.0 (10h)
  6000h/0 "Ramp time": 2500 ms = 2.500 s, as before
  stopped at element 2 (6200h/1 "Move times"): it needs 6 bytes of payload, and 2 came
  element 3 (6200h/2 "Move times") is not in use, since the count of 1600h is 2
  1C81h/0 "Short payloads": the bit of node 5 is set (byte 0: 00 -> 10)
"#;
    assert_eq!((found.status, found.out.as_str()), (1, wanted));
    let word = "edition 2\n1400h Record\n1 U8 = 5\n1600h Array count 1\n1 6000h at 0 length 1\n2 U32\n6000h Variable U8\n";
    let found = consume(&file("unused-word.rig", word.as_bytes()), "0", "07");
    let last = "  element 2 (an Unsigned32) is not in use, since the count of 1600h is 1\n";
    assert!(found.status == 0 && found.out.ends_with(last), "{}", found.out);
}

#[test]
fn a_channel_that_is_off_has_its_version_judged() {
    let path = file("three-off.rig", THREE.replace("Array", "Array count 0").as_bytes());
    let right = consume(&path, "0", "010002000300");
    let wanted = "payload 1: 6 bytes from node 5, version 0.0 (00h)
  channel 0 is off, since the count of 1600h is 0: nothing happens
";
    assert_eq!((right.status, right.out.as_str()), (0, wanted));
    let wrong = consume(&path, "1.0", "010002000300");
    let wanted = "payload 1: 6 bytes from node 5, version 1.0 (10h)
  refused: the payload has version 1.0 (10h), channel 0 expects 0.0 (00h)
  1C80h/0: the bit of node 5 is set (byte 0: 00 -> 10)
";
    assert_eq!((wrong.status, wrong.out.as_str()), (1, wanted));
}

#[test]
fn a_short_value_sets_the_bit_in_edition_2() {
    for (edition, bit) in [(1, false), (2, true)] {
        let text = THREE.replace("edition 2", &format!("edition {edition}"));
        let text = text.replace("at 0 length 2", "at 0 length 1");
        let path = file(&format!("three-short-{edition}.rig"), text.as_bytes());
        let run = consume(&path, "0", "010002000300");
        let why = "a field of 1 byte is too short for an Unsigned16 of 2 bytes";
        assert!(run.out.contains(why), "{}", run.out);
        let set = "  1C81h/0: the bit of node 5 is set (byte 0: 00 -> 10)\n";
        assert_eq!((run.status, run.out.ends_with(set)), (1, bit), "{}", run.out);
    }
}

#[test]
fn a_count_in_a_payload_is_passed_over() {
    let text = "edition 2\n1400h Record\n1 U8 = 5\n1600h Array count 1\n1 1600h/0 at 0 length 1\n2 6000h at 1 length 1\n\
                6000h Variable U8\n";
    let path = file("own-count.rig", text.as_bytes());
    let run = run(&["consume", &path, "--from", "5", "--version", "0", "0207", "0207"]);
    let passed = "element 1 (1600h/0) is passed over: it is a mapping's count\n";
    let unused = "element 2 (6000h/0) is not in use, since the count of 1600h is 1\n";
    assert_eq!((run.out.matches(passed).count(), run.out.matches(unused).count()), (2, 2));
}

#[test]
fn a_replay_tells_them_but_among_changes() {
    let moves = [[0x10, 0x27], [0x10, 0x27], [0x20, 0x4E]];
    let frames = moves.map(|[low, high]| response(5, 0x10, &[0xC4, 9, low, high, 0, 0]));
    let capture = file("edition2.pcap", &pcap(false, false, &frames));
    let replay = |options: &[&str]| {
        run(&[&["replay", &rig("edition2.rig"), &capture][..], options].concat())
    };
    let unused =
        "element 3 (6200h/2 \"Move times\") is not in use, since the count of 1600h is 2\n";
    let all = replay(&[]);
    assert_eq!((all.status, all.out.matches(unused).count()), (0, 3), "{}", all.out);
    let changes = replay(&["--changes"]).out;
    assert_eq!((changes.matches(unused).count(), changes.matches("No. ").count()), (0, 2));
    let of_object = replay(&["--object", "6200h/2"]).out;
    assert_eq!(of_object.matches(unused).count(), 3, "{of_object}");
    assert!(!of_object.contains("6000h/0"), "{of_object}");
    let json = replay(&["--json"]).out;
    assert_eq!(json.matches("is not in use, since the count of 1600h is 2\"").count(), 3);
    assert!(
        all.out.contains("     5       3          0               6  \"Winch\"\n"),
        "{}",
        all.out
    );
}

#[test]
fn a_replay_onto_channels_that_are_off_looks_at_nothing() {
    let mapped = "edition 2\n1400h Record\n1 U8 = 5\n1600h Array count 0\n1 6000h at 0 length 1\n1401h Record\n1 U8 = 6\n\
                  6000h Variable U8\n";
    let path = file("off.rig", mapped.as_bytes());
    let frames = [response(5, 0, &[7]), response(6, 0, &[7])];
    for (frames, why) in [
        (&frames[..1], "the channels that take these frames are off"),
        (&frames[1..], "the channels that take these frames have no mapping"),
        (&frames[..], "the channels that take these frames have no mapping, or are off"),
    ] {
        let run = run(&["replay", &path, &file("off.pcap", &pcap(false, false, frames))]);
        let wanted = format!("nothing was looked at: {why}\n");
        assert!(run.status == 3 && run.out.ends_with(&wanted), "{}", run.out);
    }
    let capture = file("off-object.pcap", &pcap(false, false, &frames[..1]));
    let object = run(&["replay", &path, &capture, "--object", "6000h"]).out;
    assert!(object.contains("channel 0 is off, since the count of 1600h is 0: nothing happens"));
}

/// A drive of three fields, and a console that takes them.
fn pair(name: &str, drive: (&str, &str), console: (&str, &str)) -> Run {
    let sends = "edition 2\n1A00h Array\n1 6000h at 0 length 2\n2 6001h at 2 length 2\n3 6002h at 4 length 2\n\
                 6000h Variable U16\n6001h Variable U16\n6002h Variable U16\n";
    let takes = sends.replace("1A00h Array", "1400h Record\n1 U8 = 5\n1600h Array");
    let sends = file(&format!("{name}-drive.rig"), sends.replace(drive.0, drive.1).as_bytes());
    let takes = file(&format!("{name}.rig"), takes.replace(console.0, console.1).as_bytes());
    run(&["pair", &sends, &takes])
}

const NO_CHANGE: (&str, &str) = ("edition 2", "edition 2");

#[test]
fn a_pair_is_of_elements_in_use() {
    let (drive, console) =
        (("1A00h Array", "1A00h Array count 2"), ("1600h Array", "1600h Array count 2"));
    let found = pair("both", drive, console);
    let wanted = "node 5: 2 of 3 elements in use of its 1A00h against 2 of 3 in use of the console's 1600h
version: the drive sends 0.0 (00h), and the console takes 0.0 (00h)
the drive's element 1 sends 2 bytes (0 to 1) of 6000h/0, and the console's element 1 writes them whole to 6000h/0, an Unsigned16 of 2 bytes
the drive's element 2 sends 2 bytes (2 to 3) of 6001h/0, and the console's element 2 writes them whole to 6001h/0, an Unsigned16 of 2 bytes
note: the drive's element 3 is not in use, since the count of 1A00h is 2
note: the console's element 3 is not in use, since the count of 1600h is 2
";
    assert_eq!((found.status, found.out.as_str()), (0, wanted));
    let less = pair("less", drive, NO_CHANGE);
    let wanted = "FAULT: the console's element 3 takes 2 bytes (4 to 5) onto 6002h/0, and the drive's elements fill 4 bytes: \
                  a payload of that length stops there\nnote: the drive's element 3 is not in use, since the count of 1A00h is 2\n";
    assert!(less.status == 1 && less.out.ends_with(wanted), "{}", less.out);
    let more = pair("more", NO_CHANGE, console);
    let wanted = "note: the drive's element 3 sends 2 bytes (4 to 5) of 6002h/0, and no element of the console takes them\n\
                  note: the console's element 3 is not in use, since the count of 1600h is 2\n";
    assert!(more.status == 0 && more.out.ends_with(wanted), "{}", more.out);
}

#[test]
fn a_side_that_is_off_is_a_fault() {
    let drive = pair("drive-off", ("1A00h Array", "1A00h Array count 0"), NO_CHANGE);
    let wanted = "node 5: 0 of 3 elements in use of its 1A00h against 3 of the console's 1600h
version: the drive sends 0.0 (00h), and the console takes 0.0 (00h)
FAULT: the drive's mapping is off, since the count of 1A00h is 0: it sends nothing
";
    assert_eq!((drive.status, drive.out.as_str()), (1, wanted));
    let console = pair("console-off", NO_CHANGE, ("1600h Array", "1600h Array count 0"));
    let wanted = "FAULT: the console's mapping is off, since the count of 1600h is 0: nothing that the drive sends is written\n";
    assert!(console.status == 1 && console.out.ends_with(wanted), "{}", console.out);
}

#[test]
fn a_drive_s_count_is_judged_where_it_stands() {
    let limits = "1F98h Array\n1 U16 = 6\n2 U16 = 1\n1A00h Array count 2";
    let run = pair("limits", ("1A00h Array", limits), NO_CHANGE);
    assert!(run.out.starts_with("node 5: 2 of 3 elements in use of its 1A00h"), "{}", run.err);
    let run = pair("over", ("1A00h Array", &limits.replace("= 6", "= 3")), NO_CHANGE);
    let wanted = "over-drive.rig:5:19: expected a count of at most 1, found 2: element 2 needs a payload of 4 bytes, and 1F98h/1 \
                  allows 3 (PdoMapOverrun, 11)\n";
    assert!(run.status == 2 && run.err.ends_with(wanted), "{}", run.err);
}

#[test]
fn edition_1_is_what_a_rig_without_an_edition_has() {
    let text = std::fs::read_to_string(rig("faults.rig")).unwrap();
    let one = run(&["check", &file("edition-1.rig", format!("edition 1\n{text}").as_bytes())]);
    assert_eq!(one.out, run(&["check", &rig("faults.rig")]).out);
    let two = run(&["check", &file("edition-2.rig", format!("edition 2\n{text}").as_bytes())]);
    assert_eq!(two.out, one.out);
    let named = format!("rig 1\nnode 5 \"Winch\"\nedition 2\n{text}");
    assert_eq!(run(&["check", &file("edition-named.rig", named.as_bytes())]).status, 1);
}

/// The errors of a rig, each as line, column and words; each test has a file of its own.
fn errors(name: &str, text: &str) -> Vec<String> {
    let path = file(name, text.as_bytes());
    let found = run(&["check", &path]);
    assert_eq!((found.status, found.out.as_str()), (2, ""), "{text}");
    let start = format!("loomfinch: {path}:");
    found.err.lines().map(|line| line.strip_prefix(&start).unwrap_or(line).to_string()).collect()
}

#[test]
fn an_edition_that_is_wrong_is_told_with_its_place() {
    let edition = "expected edition 1 or 2 of the mapping rules, as in edition 2, found";
    for (text, wanted) in [
        ("edition 3", format!("1:9: {edition} '3'")),
        ("edition 0", format!("1:9: {edition} '0'")),
        ("  edition two", format!("1:11: {edition} 'two'")),
        ("edition \"2\"", format!("1:9: {edition} the text \"2\"")),
        ("edition", format!("1:8: {edition} the end of the line")),
        ("edition 258", format!("1:9: {edition} '258'")),
        ("edition 2 1", "1:11: expected the end of the line, found '1'".to_string()),
        (
            "rig 1\nedition 2\nedition 2",
            "3:1: expected one edition, found a second (first on line 2)".to_string(),
        ),
        ("edition 3\n1600h Array count 1\n1 6000h at 0 length 1", format!("1:9: {edition} '3'")),
        (
            "1600h Array\nedition 2\n1 6000h at 0 length 1",
            "2:1: expected 'edition' before the first object".to_string(),
        ),
    ] {
        let text = format!("{text}\n6000h Variable U8\n");
        assert_eq!(errors("wrong-edition.rig", &text), [wanted], "{text}");
    }
}

#[test]
fn a_count_that_is_not_kept_is_told_with_its_reason() {
    let range = "expected a count of 0 to 254 elements, as in count 2, found";
    for (line, elements, wanted) in [
        ("1600h Array count 3", "1..2 6000h at 0 length 1", "2:19: expected a count of at most 2, found 3: 1600h has 2 elements (MissingEntries, 10)".to_string()),
        ("1600h Array count 2", "1 6000h at 0 length 1", "2:19: expected a count of at most 1, found 2: 1600h has 1 element (MissingEntries, 10)".to_string()),
        ("1600h Array count 3", "1..2 U32", "2:19: expected a count of at most 0, found 3: element 1 is an Unsigned32, not an Unsigned64 (MissingEntries, 10)".to_string()),
        ("1600h Array count 2", "1..2 6000h at 40 length 1", "2:19: expected a count of at most 0, found 2: element 1 needs a payload of 41 bytes, and 1F98h/2 allows 40 (PdoMapOverrun, 11)".to_string()),
        ("1A00h Array count 1", "1 6000h at 1490 length 1", "2:19: expected a count of at most 0, found 1: element 1 needs a payload of 1491 bytes, and none has more than 1490 (PdoMapOverrun, 11)".to_string()),
        ("1600h Record count 1", "1 6000h at 0 length 1", "2:20: expected an Array for a count of 1: a Record can only be turned off, by count 0 (ObjectNotFound, 3)".to_string()),
        ("1600h Array ro count 1", "1 6000h at 0 length 1", "2:22: expected a mapping that may be written, found 1600h to be ReadOnly (ReadOnly, 6)".to_string()),
        ("1600h Array const count 0", "1 6000h at 0 length 1", "2:25: expected a mapping that may be written, found 1600h to be Constant (ReadOnly, 6)".to_string()),
        ("6200h Array count 1", "1 U8", "2:19: expected 'count' at a mapping, 1600h to 16FFh or 1A00h to 1AFFh, found it at 6200h (CountNotWritable, 9)".to_string()),
        ("1600h Variable U8 count 0", "", "2:19: expected 'count' at an Array or a Record: a Variable has no elements".to_string()),
        ("1600h Array count", "", format!("2:18: {range} the end of the line")),
        ("1600h Array count 255", "", format!("2:19: {range} '255'")),
        ("1600h Array count -1", "", format!("2:19: {range} '-1'")),
        ("1600h Array count = 1", "", format!("2:19: {range} '='")),
        ("1600h Array count 0 count 0", "", "2:27: expected one count, found a second".to_string()),
    ] {
        let text = format!("edition 2\n{line}\n{elements}\n1F98h Array\n1 U8\n2 U16 = 40\n6000h Variable U8\n");
        assert_eq!(errors("wrong-count.rig", &text), [wanted], "{text}");
    }
}

#[test]
fn a_count_in_edition_1_is_told_and_all_errors_at_once() {
    let one =
        "expected 'edition 2' before the first object of a rig with a count: edition 1 keeps none";
    let text =
        "1600h Array count 1\n1 6000h at 0 length 1\n1601h Array count 9\n6000h Variable U8\n";
    let wanted = [format!("1:19: {one}"), format!("3:19: {one}")];
    assert_eq!(errors("all-errors.rig", text), wanted);
    assert_eq!(errors("all-errors.rig", &format!("edition 1\n{text}"))[0], format!("2:19: {one}"));
    let both = errors("all-errors.rig", "edition 2\n1A00h Array count 1\n1600h Array count 9\n");
    let has_none = |index: &str, count: u8| {
        format!("expected a count of at most 0, found {count}: {index} has 0 elements (MissingEntries, 10)")
    };
    assert_eq!(
        both,
        [format!("2:19: {}", has_none("1A00h", 1)), format!("3:19: {}", has_none("1600h", 9))]
    );
}
