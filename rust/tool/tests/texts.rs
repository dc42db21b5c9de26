//! Fields that are no text or too short for their value: which byte, and how many.

mod common;

use common::captures::{pcap, response};
use common::{file, rig, run};

/// What is said of a payload that stops: its field, from a byte of the payload on, and the bytes behind it.
fn stop(name: &str, start: usize, field: &[u8], behind: &[u8]) -> String {
    let length = field.len();
    let text = format!(
        "1400h Record\n1 U8 = 5\n1600h Array\n1 6100h at {start} length {length}\n\
         6100h Variable VisibleString \"Caption\" room 1490\n"
    );
    let path = file(&format!("texts-{name}.rig"), text.as_bytes());
    let payload: Vec<u8> = [&vec![0x41; start][..], field, behind].concat();
    let hex: String = payload.iter().map(|byte| format!("{byte:02X}")).collect();
    let run = run(&["consume", &path, "--from", "5", "--version", "0", &hex]);
    assert_eq!((run.status, run.err.as_str()), (1, ""));
    let stopped = "  stopped at element 1 (6100h/0 \"Caption\"): ";
    let lines: Vec<&str> = run.out.lines().collect();
    assert_eq!(lines.len(), 2, "{}", run.out);
    lines[1].strip_prefix(stopped).unwrap_or_else(|| panic!("{}", run.out)).to_string()
}

/// A payload of rigs/captions.rig: cue 7, its fades, and a caption filled up with spaces to its 20 bytes.
fn captioned(caption: &[u8]) -> Vec<u8> {
    let mut payload = vec![7, 0, 0xC4, 9, 0, 0, 0xE8, 3, 0, 0];
    payload.extend(caption);
    payload.resize(30, b' ');
    payload
}

#[test]
fn a_caption_has_three_ways_to_be_no_text() {
    let frames = [
        captioned("Acte II été".as_bytes()),
        captioned(b"Acte II \xFCber"),
        captioned(b"Acte II \xE9t\xE9"),
        captioned(b"Acte II, la nuit d'\xE9"),
    ];
    let frames: Vec<Vec<u8>> = frames.iter().map(|payload| response(12, 0x10, payload)).collect();
    let capture = file("captions.pcap", &pcap(false, false, &frames));
    let told = run(&["replay", &rig("captions.rig"), &capture]);
    assert_eq!(told.status, 1);
    for wanted in [
        "    6100h/0 \"Caption\": \"\" -> \"Acte II été       \"\n",
        "    stopped at element 4 (6100h/0 \"Caption\"): byte 8 of the field, FCh, is no UTF-8 after \
         \"Acte II \"; the field may be Latin-1\n",
        "    stopped at element 4 (6100h/0 \"Caption\"): byte 9 of the field, 74h, cannot follow E9h, \
         which stands after \"Acte II \"; the field may be Latin-1\n",
        "    stopped at element 4 (6100h/0 \"Caption\"): the field ends at byte 20, within the \
         character begun by E9h after \"Acte II, la nuit d'\"; the field may be Latin-1\n",
        "\n        no text in 3 frames, first in No. 2: stopped at element 4 (6100h/0 \"Caption\"): \
         byte 8 of the field, FCh, is no UTF-8 after \"Acte II \"; the field may be Latin-1\n",
    ] {
        assert!(told.out.contains(wanted), "{}\nwanted {wanted}", told.out);
    }
}

#[test]
fn the_json_has_the_byte() {
    let frames = [captioned("Acte II".as_bytes()), captioned(b"Acte II \xE9t\xE9")];
    let frames: Vec<Vec<u8>> = frames.iter().map(|payload| response(12, 0x10, payload)).collect();
    let capture = file("caption-json.pcap", &pcap(false, false, &frames));
    let told = run(&["replay", "--json", &rig("captions.rig"), &capture]);
    let text = r#""text": "stopped at element 4 (6100h/0 \"Caption\"): byte 9 of the field, 74h, cannot follow E9h, which stands after \"Acte II \"; the field may be Latin-1", "element": 4, "at": 9, "needed": null, "had": null}"#;
    let lines: Vec<&str> = told.out.lines().collect();
    assert!(lines[0].contains("\"troubles\": []"), "{}", lines[0]);
    assert!(lines[1].contains(&format!("\"troubles\": [{{\"kind\": \"no text\", {text}]")));
    let first =
        format!("\"troubles\": [{{\"kind\": \"no text\", \"frames\": 1, \"first\": 2, {text}]");
    assert!(lines[2].contains(&first), "{}", lines[2]);
}

#[test]
fn the_json_has_the_bytes_needed_and_had() {
    let text = "1400h Record\n1 U8 = 5\n1600h Array\n1 6000h at 0 length 3\n6000h Variable U32\n";
    let path = file("needed.rig", text.as_bytes());
    let capture = file("needed.pcap", &pcap(false, false, &[response(5, 0, &[1, 2, 3])]));
    let told = run(&["replay", "--json", &path, &capture]);
    let wanted = "\"troubles\": [{\"kind\": \"short\", \"text\": \"stopped at element 1 (6000h/0): a field of \
                  3 bytes is too short for an Unsigned32 of 4 bytes\", \"element\": 1, \"at\": null, \
                  \"needed\": 4, \"had\": 3}]";
    assert!(told.out.contains(wanted), "{}", told.out);
    // A payload that ends early and a wrong version have no such numbers.
    let frames = [response(5, 0, &[1]), response(5, 0x22, &[1, 2, 3])];
    let capture = file("unneeded.pcap", &pcap(false, false, &frames));
    let told = run(&["replay", "--json", &path, &capture]).out;
    let lines: Vec<&str> = told.lines().collect();
    let none = "\"at\": null, \"needed\": null, \"had\": null}]";
    assert!(lines[0].contains(&format!("3 bytes of payload, and 1 came\", \"element\": 1, {none}")));
    assert!(lines[1].contains(&format!("expects 0.0 (00h)\", \"element\": null, {none}")));
}

#[test]
fn a_short_value_has_both_counts() {
    let text = "1400h Record\n1 U8 = 5\n1600h Array\n1 6200h/0 at 0 length 0\n6200h Array\n1 U8\n";
    let count = file("no-count.rig", text.as_bytes());
    let text =
        "1400h Record\n1 U8 = 5\n1600h Array\n1 6000h at 1 length 7\n6000h Variable NetTime\n";
    let time = file("short-time.rig", text.as_bytes());
    for (path, wanted) in [
        (&count, "(6200h/0): a field of 0 bytes is too short for a list's count of 1 byte\n"),
        (&time, "(6000h/0): a field of 7 bytes is too short for a NetTime of 8 bytes\n"),
    ] {
        let run = run(&["consume", path, "--from", "5", "--version", "0", "0102030405060708"]);
        assert!(run.out.ends_with(&format!("  stopped at element 1 {wanted}")), "{}", run.out);
    }
}

#[test]
fn the_first_byte_may_be_the_one() {
    let wanted = "byte 0 of the field, FCh, is no UTF-8; the field may be Latin-1";
    assert_eq!(stop("first", 3, b"\xFC", b""), wanted);
    assert_eq!(stop("only", 0, b"\x80", b""), "byte 0 of the field, 80h, is no UTF-8");
}

#[test]
fn a_character_that_began_well_is_not_to_blame() {
    for (name, field, wanted) in [
        ("euro", &[0xE2, 0x82, 0x41][..], "byte 2 of the field, 41h, cannot follow E2h 82h"),
        ("overlong", &[0xE0, 0x80], "byte 1 of the field, 80h, cannot follow E0h"),
        (
            "surrogate",
            &[0xED, 0xA0],
            "byte 1 of the field, A0h, cannot follow EDh; the field may be Latin-1",
        ),
        ("beyond", &[0xF4, 0x90], "byte 1 of the field, 90h, cannot follow F4h"),
    ] {
        assert_eq!(stop(name, 2, field, b""), wanted);
    }
}

#[test]
fn nothing_behind_a_field_is_read() {
    // The byte behind the field would be the euro sign's last.
    let wanted = "the field ends at byte 3, within the character begun by E2h 82h after \"a\"";
    for (name, behind) in [("last", &b""[..]), ("completed", b"\xAC"), ("followed", b"\xACb")] {
        assert_eq!(stop(name, 1, b"a\xE2\x82", behind), wanted);
    }
}

#[test]
fn the_longest_field_is_shown_by_its_end() {
    let mut field = vec![b'a'; 1490];
    let end = "a".repeat(20);
    for (name, last, wanted) in [
        ("longest-bad", 0xFC, "byte 1489 of the field, FCh, is no UTF-8 after .."),
        (
            "longest-cut",
            0xE9,
            "the field ends at byte 1490, within the character begun by E9h after ..",
        ),
    ] {
        field[1489] = last;
        let wanted = format!("{wanted}\"{end}\"; the field may be Latin-1");
        assert_eq!(stop(name, 0, &field, b""), wanted);
    }
}

#[test]
fn a_text_before_cannot_move_the_cursor() {
    let wanted = "byte 9 of the field, FFh, is no UTF-8 after \"\\u{1b}[1m \\\"é\\\\\"";
    assert_eq!(stop("escaped", 0, b"\x1B[1m \"\xC3\xA9\\\xFF", b""), wanted);
}
