//! `loomfinch consume`.

mod common;

use common::{file, rig, run};

/// The set-up of document 01's cases 8 to 12, without times.
const CASES: &str = "
1400h Record
  1 Unsigned8 = 5
  2 Unsigned8 = 10h
1600h Array
  1 6000h/0 at 0 length 2
  2 6200h/3 at 2 length 4
6000h Variable Unsigned16
6200h Array
  1..3 Unsigned32
1C80h Variable OctetString = [00 * 32]
1C81h Variable OctetString = [00 * 32]
";

#[test]
fn case_8() {
    let run = run(&[
        "consume",
        &file("case8.rig", CASES.as_bytes()),
        "--from",
        "5",
        "--version",
        "12h",
        "C40910270000",
    ]);
    let wanted = "payload 1: 6 bytes from node 5, version 1.2 (12h)\n  6000h/0: 0 -> 2500\n  6200h/3: 0 -> 10000\n";
    assert_eq!((run.status, run.out.as_str()), (0, wanted));
}

#[test]
fn case_9() {
    let run = run(&[
        "consume",
        &file("case9.rig", CASES.as_bytes()),
        "--from=5",
        "--version=18",
        "C4 09 10:27 00",
    ]);
    let wanted = "payload 1: 5 bytes from node 5, version 1.2 (12h)\n  6000h/0: 0 -> 2500\n  stopped at element 2 (6200h/3): it \
                  needs 6 bytes of payload, and 5 came\n  1C81h/0: the bit of node 5 is set (byte 0: 00 -> 10)\n";
    assert_eq!((run.status, run.out.as_str()), (1, wanted));
}

#[test]
fn case_10() {
    let text = CASES.replace("at 0 length 2", "at 0 length 1");
    let run = run(&[
        "consume",
        &file("case10.rig", text.as_bytes()),
        "--from",
        "5",
        "--version",
        "0x12",
        "C40910270000",
    ]);
    let wanted = "payload 1: 6 bytes from node 5, version 1.2 (12h)\n  stopped at element 1 (6000h/0): a field of 1 byte is too \
                  short for an Unsigned16 of 2 bytes\n  element 2 (6200h/3) is not reached\n";
    assert_eq!((run.status, run.out.as_str()), (1, wanted));
}

#[test]
fn case_11() {
    let run =
        run(&["consume", &rig("ramp.rig"), "--from", "5", "--version", "12h", "905F01000000"]);
    let wanted = "payload 1: 6 bytes from node 5, version 1.2 (12h)
  6000h/0 \"Ramp time\": 0 ms = 0.000 s -> 24464 ms = 24.464 s
    CUT: element 1's field is 90 5F 01 00, 90000 ms = 90.000 s; the last 2 bytes, 01 00, are lost
  6200h/3 \"Move times\": 0 ms = 0.000 s -> 1 ms = 0.001 s
";
    assert_eq!((run.status, run.out.as_str()), (1, wanted));
}

#[test]
fn a_cut_that_changes_the_value_is_told() {
    let text =
        "1400h Record\n1 U8 = 5\n1600h Array\n1 6000h at 0 length 4\n2 6001h at 0 length 8\n\
                6000h Variable I16\n6001h Variable Real32\n";
    let path = file("cuts.rig", text.as_bytes());
    let run = run(&[
        "consume",
        &path,
        "--from",
        "5",
        "--version",
        "0",
        "FEFFFFFF00000000",
        "FEFFFF7F00000000",
    ]);
    let wanted = "payload 1: 8 bytes from node 5, version 0.0 (00h)
  6000h/0: 0 -> -2
  6001h/0: 0 -> NaN
    CUT: element 2's field is FE FF FF FF 00 00 00 00; the last 4 bytes, 00 00 00 00, are lost
payload 2: 8 bytes from node 5, version 0.0 (00h)
  6000h/0: -2, as before
    CUT: element 1's field is FE FF FF 7F, 2147483646; the last 2 bytes, FF 7F, are lost
";
    assert!(run.out.starts_with(wanted), "{}", run.out);
}

#[test]
fn times_and_decimal_marks_are_asked_for() {
    let path = file("times.rig", CASES.as_bytes());
    let run = run(&[
        "consume",
        &path,
        "--from",
        "5",
        "--version",
        "12h",
        "--times",
        "--comma",
        "C40910270000",
    ]);
    assert!(run.out.contains("6000h/0: 0 ms = 0,000 s -> 2500 ms = 2,500 s\n"), "{}", run.out);
}

#[test]
fn the_decimal_comma_is_whole() {
    let text =
        "1400h Record\n1 U8 = 5\n1600h Array\n1 6000h at 0 length 4\n6000h Variable Real32 = 1.5\n";
    let path = file("real.rig", text.as_bytes());
    let arguments = ["consume", &path, "--from", "5", "--version", "0", "--comma", "000020C0"];
    let real = run(&arguments);
    assert!(real.out.contains("6000h/0: 1,5 -> -2,5\n"), "{}", real.out);
    let long = "00".repeat(1491);
    let refused = run(&["consume", &path, "--from", "5", "--version", "0", "--comma", &long]);
    assert!(refused.out.contains("refused: PayloadTooLong"), "{}", refused.out);
    assert!(!refused.out.contains("1,490"), "{}", refused.out);
    assert_eq!(run(&["check", "--comma", &path]).status, 0);
}

#[test]
fn a_wrong_version_is_noted() {
    let path = file("version.rig", CASES.as_bytes());
    let run =
        run(&["consume", &path, "--from", "5", "--version", "22h", "C40910270000", "C40910270000"]);
    let wanted = "payload 1: 6 bytes from node 5, version 2.2 (22h)
  refused: the payload has version 2.2 (22h), channel 0 expects 1.0 to 1.F
  1C80h/0: the bit of node 5 is set (byte 0: 00 -> 10)
payload 2: 6 bytes from node 5, version 2.2 (22h)
  refused: the payload has version 2.2 (22h), channel 0 expects 1.0 to 1.F
";
    assert_eq!((run.status, run.out.as_str()), (1, wanted));
}

#[test]
fn a_version_is_taken_in_both_forms() {
    let path = file("versions.rig", CASES.as_bytes());
    for version in ["1.2", "12h", "0x12", "18"] {
        let run = run(&["consume", &path, "--from", "5", "--version", version, "C40910270000"]);
        let wanted = "payload 1: 6 bytes from node 5, version 1.2 (12h)\n  6000h/0: 0 -> 2500\n";
        assert!(run.out.starts_with(wanted), "{}", run.out);
    }
    for version in ["1.G", "1.", ".2", "11.2", "1.2.3", "100h"] {
        let run = run(&["consume", &path, "--from", "5", "--version", version, "C40910270000"]);
        assert!(run.err.contains("--version needs a mapping version"), "{}", run.err);
    }
}

#[test]
fn what_does_nothing() {
    let path = file("nothing.rig", CASES.as_bytes());
    let not_ready =
        run(&["consume", &path, "--from", "5", "--version", "12h", "--not-ready", "C40910270000"]);
    assert!(not_ready.out.ends_with("  not ready: nothing happens\n"), "{}", not_ready.out);
    let unknown = run(&["consume", &path, "--from", "6", "--version", "12h", "C40910270000"]);
    assert!(
        unknown.out.ends_with("  no channel of the rig takes node 6: nothing happens\n"),
        "{}",
        unknown.out
    );
    assert_eq!((not_ready.status, unknown.status), (0, 0));
}

#[test]
fn each_way_in_which_an_element_fails() {
    let text = "
1400h Record
  1 U8 = 0
1600h Array
  1 U8
  2 6000h at 0 bits length 7 bits
  3 6001h at 0 length 1
  4 1200h/1 at 0 length 2
  5 6200h/0 at 0 length 1
  6 1600h/0 at 0 length 1
  7 6100h at 0 length 3
  8 6000h at 0 length 1
  9 6000h at 1 length 1
  10 6101h at 0 length 3
  11 6102h at 2 length 1
  12 6000h at 0 length 1
6000h Variable U8
6100h Variable VisibleString room 2
6101h Variable VisibleString room 3
6102h Variable VisibleString room 3
6200h Array
";
    let path = file("ways.rig", text.as_bytes());
    let run = run(&["consume", &path, "--from", "240", "--version", "0", "4142 C3"]);
    let wanted = "payload 1: 3 bytes from the managing node (240), version 0.0 (00h)
  element 1 (an Unsigned8) is passed over: it is no mapping word
  element 2 (6000h/0) is passed over: it is not whole bytes
  element 3 (6001h/0) is passed over: there is no such object
  element 4 (1200h/1) is handed on to SDO
  element 5 (6200h/0) is not written: it is a list's count
  element 6 (1600h/0) is passed over: it is a mapping's count
  stopped at element 7 (6100h/0): the field ends at byte 3, within the character begun by C3h after \"AB\"
  element 8 (6000h/0) is not reached
";
    assert!(run.out.starts_with(wanted), "{}", run.out);
    let run = common::run(&["consume", &path, "--from", "240", "--version", "0", "414243"]);
    let wanted = "
  element 7 (6100h/0) is not written: 3 bytes are more than its room of 2
  6000h/0: 0 -> 65 (element 9 writes it again)
  6000h/0: 65 -> 66 (element 12 writes it again)
  6101h/0: \"\" -> \"ABC\"
  6102h/0: \"\" -> \"C\"
  6000h/0: 66 -> 65
";
    assert!(run.out.ends_with(wanted), "{}", run.out);
}

#[test]
fn elements_and_nodes_have_names() {
    let text = "rig 1\nnode 5 \"Drehbühne\"\n1400h Record\n1 U8 = 5\n1600h Array\n1 6200h/3 at 0 length 4\n\
                2 6000h at 0 length 4\n6000h Variable U16\n6200h Array \"Move times\"\n1..2 U32 ms\n\
                3 U32 \"Revolve move\" ms\n";
    let path = file("names.rig", text.as_bytes());
    let check = run(&["check", &path]).out;
    assert!(
        check.starts_with("channel 0, from node 5 \"Drehbühne\", 2 elements: FAULT"),
        "{check}"
    );
    let consume = run(&["consume", &path, "--from", "5", "--version", "0", "905F0100"]).out;
    let wanted = "payload 1: 4 bytes from node 5 \"Drehbühne\", version 0.0 (00h)
  6200h/3 \"Revolve move\": 0 ms = 0.000 s -> 90000 ms = 90.000 s
";
    assert!(consume.starts_with(wanted), "{consume}");
}

#[test]
fn a_bit_that_is_set_is_not_the_field_s() {
    let text = "1400h Record\n1 U8 = 5\n1600h Array\n1 1C81h at 0 length 2\n2 6000h at 2 length 1\n6000h Variable U8\n\
                1C81h Variable OctetString = [00 00]\n";
    let path = file("bit.rig", text.as_bytes());
    let run = run(&["consume", &path, "--from", "5", "--version", "0", "0102"]);
    let wanted = "
  1C81h/0: [00 00] -> [01 02]
  stopped at element 2 (6000h/0): it needs 3 bytes of payload, and 2 came
  1C81h/0: the bit of node 5 is set (byte 0: 01 -> 11)
";
    assert!(run.out.ends_with(wanted), "{}", run.out);
}

#[test]
fn a_payload_may_change_its_own_mapping() {
    let text =
        "1400h Record\n1 U8 = 5\n1600h Array\n1 1600h/2 at 0 length 8\n2 6000h at 8 length 1\n\
                6000h Variable U8\n6001h Variable U8\n";
    let path = file("remap.rig", text.as_bytes());
    let run = run(&[
        "consume",
        &path,
        "--from",
        "5",
        "--version",
        "0",
        "0160000040000800 07",
        "0160000040000800 09",
    ]);
    assert!(
        run.out.contains("1600h/2: 6000h/0 at 8 length 1 -> 6001h/0 at 8 length 1\n"),
        "{}",
        run.out
    );
    assert!(run.out.contains("6000h/0: 0 -> 7\n"), "{}", run.out);
    assert!(run.out.contains("6001h/0: 0 -> 9\n"), "{}", run.out);
}

#[test]
fn payloads_that_are_too_long_or_empty() {
    let path = file("long.rig", CASES.as_bytes());
    let long = "00".repeat(1491);
    let run = run(&["consume", &path, "--from", "5", "--version", "12h", &long, ""]);
    assert!(run.out.contains("refused: PayloadTooLong"), "{}", run.out);
    assert!(run.out.contains("payload 2: 0 bytes"), "{}", run.out);
    assert_eq!(run.status, 1);
}

#[test]
fn bytes_apart_are_payloads_apart() {
    let path = file("apart.rig", CASES.as_bytes());
    let run = run(&["consume", &path, "--from", "5", "--version", "12h", "C4", "09"]);
    assert!(run.out.contains("note: these were 2 payloads of one byte each"), "{}", run.out);
}

#[test]
fn errors_of_use() {
    let path = rig("ramp.rig");
    let full = ["consume", &path, "--from", "5", "--version", "12h", "C4"];
    for (arguments, wanted) in [
        (&full[..1], "the rig file is missing"),
        (&full[..2], "--from is missing"),
        (&full[..3], "--from needs a value behind it"),
        (&full[..4], "--version is missing"),
        (&full[..6], "a payload is missing"),
        (
            &["consume", &path, "--from", "241", "--version", "1", "C4"],
            "--from needs a node from 1 to 240",
        ),
        (
            &["consume", &path, "--from", "0", "--version", "1", "C4"],
            "--from needs a node from 1 to 240, as 16, 10h or 0x10, not '0'",
        ),
        (
            &["consume", &path, "--from", "5", "--version", "C", "C4"],
            "--version needs a mapping version, as 1.2 or 12h, not 'C'",
        ),
        (
            &["consume", &path, "--from", "5", "--version", "1", "C4G"],
            "a payload is pairs of hexadecimal digits",
        ),
        (
            &["consume", &path, "--from", "5", "--version", "1", "éé"],
            "a payload is pairs of hexadecimal digits",
        ),
        (
            &["consume", &path, "--from", "5", "--version", "1", "C4 0 9"],
            "a payload is pairs of hexadecimal digits",
        ),
        (&["consume", &path, "--frm", "5"], "there is no option '--frm'"),
    ] {
        let run = run(arguments);
        assert_eq!((run.status, run.out.as_str()), (2, ""));
        assert!(run.err.contains(wanted), "{}", run.err);
    }
}
