//! `loomfinch pair`.

mod common;

use common::{file, rig, run, Run};

const CONSOLE: &str = "1400h Record\n1 U8 = 5\n2 U8 = 10h\n1600h Array\n1 6000h at 0 length 4\n2 6001h at 4 length 4\n\
                       6000h Variable U32\n6001h Variable U32\n";

fn pair(name: &str, console: &str, options: &[&str]) -> Run {
    let (drive, console) = (rig("drive.rig"), file(name, console.as_bytes()));
    run(&[&["pair", &drive, &console][..], options].concat())
}

#[test]
fn the_cause_of_an_early_revolve() {
    let run = run(&["pair", &rig("drive.rig"), &rig("ramp.rig")]);
    assert_eq!(run.status, 1);
    let wanted = r#"FAULT: the drive's element 1 sends 4 bytes (0 to 3) of 6000h/0 "Ramp time", and the console's element 1 keeps 2 of them in 6000h/0 "Ramp time", an Unsigned16 of 2 bytes: the last 2 bytes would be lost, so 90000 ms = 90.000 s arrives as 24464 ms = 24.464 s
"#;
    assert!(run.out.contains(wanted), "{}", run.out);
}

#[test]
fn the_mended_console_takes_all() {
    let found = pair("whole.rig", CONSOLE, &[]);
    let wanted = r#"node 5 "Revolve": 2 elements of its 1A00h against 2 of the console's 1600h
version: the drive sends 1.2 (12h), and the console takes 1.0 to 1.F
the drive's element 1 sends 4 bytes (0 to 3) of 6000h/0 "Ramp time", and the console's element 1 writes them whole to 6000h/0, an Unsigned32 of 4 bytes
the drive's element 2 sends 4 bytes (4 to 7) of 6040h/1 "Time of the move", and the console's element 2 writes them whole to 6001h/0, an Unsigned32 of 4 bytes
"#;
    assert_eq!((found.status, found.out.as_str()), (0, wanted));
    assert_eq!(run(&["pair", &rig("drive.rig"), &rig("mended.rig")]).status, 0);
}

#[test]
fn each_way_in_which_two_sides_part() {
    for (k, (from, to, wanted)) in [
        ("2 U8 = 10h", "2 U8 = 20h", "FAULT: version: the drive sends 1.2 (12h), and the console takes 2.0 to 2.F: every payload"),
        ("at 0 length 4", "at 0 length 2", "FAULT: the drive's element 1 sends 4 bytes (0 to 3) of 6000h/0 \"Ramp time\", and of the console, element 1"),
        ("6000h Variable U32", "6000h Variable U8", "keeps 1 of them in 6000h/0, an Unsigned8 of 1 byte: the last 3 bytes would be lost, so 90000 ms = 90.000 s arrives as 144 ms = 0.144 s"),
        ("at 0 length 4", "at 0 length 8", "takes 8 bytes onto 6000h/0, an Unsigned32 of 4 bytes: the last 4 bytes are not that element's"),
        ("at 4 length 4", "at 2 length 4", "and the console's element 2 takes 4 bytes (2 to 5): they do not begin at the same byte"),
        ("at 4 length 4", "at 8 length 4", "FAULT: the console's element 2 takes 4 bytes (8 to 11) onto 6001h/0, and the drive's elements fill 8 bytes: a payload of that length stops there"),
        ("2 6001h at 4 length 4\n", "", "note: the drive's element 2 sends 4 bytes (4 to 7) of 6040h/1 \"Time of the move\", and no element of the console takes them"),
        ("6001h Variable U32", "6001h Variable I32", "note: the drive's element 2 sends 4 bytes (4 to 7) of 6040h/1 \"Time of the move\", and the console's element 2 writes them whole to 6001h/0, an Integer32 of 4 bytes: the drive has an Unsigned32 there"),
        ("at 0 length 4", "at 0 length 2", "and the console's element 2 is never reached, since every payload stops at element 1\n"),
        ("at 0 length 4", "at 2 length 8", "and the console's element 2 is not reached by a payload of the 8 bytes that the drive's elements fill, which stops at element 1\n"),
        ("2 6001h at 4 length 4", "2 6001h at 0 length 4", "and the console's element 2 writes them whole to 6001h/0"),
        ("2 6001h at 4 length 4", "2 6001h at 4 length 4\n3 6001h at 2 length 4", "FAULT: the console's element 3 takes 4 bytes (2 to 5) onto 6001h/0, and the drive's element 1 sends 4 bytes (0 to 3): they do not begin at the same byte\n"),
        ("at 4 length 4", "at 4 length 4\n3 6001h at 0 bits length 7 bits", "FAULT: of the console, element 3 maps 7 bits from bit 0 on onto 6001h/0: only whole bytes are written, so it is passed over\n"),
        ("1 6000h at 0 length 4\n2 6001h at 4 length 4\n", "", "FAULT: the console's mapping has no element: nothing that the drive sends is written\n"),
        ("1 U8 = 5", "1 U8 = 6", "FAULT: no channel of the console takes node 5 \"Revolve\": nothing that it sends arrives"),
    ]
    .into_iter()
    .enumerate()
    {
        let run = pair(&format!("way-{k}.rig"), &CONSOLE.replace(from, to), &["--node", "5"]);
        assert!(run.out.contains(wanted), "{wanted}\n{}", run.out);
        assert_eq!(run.status, i32::from(wanted.contains("FAULT") || run.out.contains("FAULT")));
    }
}

/// What is said of a drive's one element, and of its objects.
fn drive_says(name: &str, element: &str, wanted: &str) {
    let drive = format!(
        "rig 1\n1800h Record\n1 U8 = 0\n2 U8 = 10h\n1A00h Array\n1 {element}\n6000h Variable U16 \"Ramp\" ms\n\
         6001h Variable U32 \"Move\" ms\n6002h Array\n1..2 U8\n6003h Variable UnicodeString room 8\n\
         6004h Variable VisibleString room 2\n"
    );
    let drive = file(&format!("drive-{name}.rig"), drive.as_bytes());
    let console = file(&format!("drive-{name}-console.rig"), CONSOLE.as_bytes());
    let run = run(&["pair", &drive, &console]);
    assert!(
        run.out.contains(&format!("the drive's element 1 {wanted}\n")),
        "{wanted}\n{}",
        run.out
    );
    // What a receiver does with a mapping is said of no sender.
    for word in ["passed over", "would be lost", "handed on", "FAULT: of the drive"] {
        assert!(!run.out.contains(word), "{}", run.out);
    }
}

#[test]
fn what_a_drive_sends_is_told_of_sending() {
    for (k, (element, wanted)) in [
        ("6000h at 0 length 4", "sends 4 bytes (0 to 3) of 6000h/0 \"Ramp\", an Unsigned16 of 2 bytes: the last 2 bytes are not the object's"),
        ("6001h at 0 length 2", "sends 2 bytes (0 to 1) of 6001h/0 \"Move\", an Unsigned32 of 4 bytes: the last 2 bytes are not sent, so 90000 ms = 90.000 s arrives as 24464 ms = 24.464 s"),
        ("6009h at 0 length 4", "sends 4 bytes (0 to 3) of 6009h/0, and there is no object 6009h"),
        ("6002h/3 at 0 length 1", "sends 1 byte (0) of 6002h/3, and 6002h has 2 elements"),
        ("6001h at 4 bits length 4 bits", "sends 4 bits from bit 4 on of 6001h/0 \"Move\": the console takes whole bytes alone"),
        ("6003h at 8 length 3", "sends 3 bytes (8 to 10) of 6003h/0, a UnicodeString with room for 8 bytes: half of its last character is not sent"),
        ("6004h at 8 length 3", "sends 3 bytes (8 to 10) of 6004h/0, a VisibleString with room for 2 bytes: the last byte is not the object's"),
        ("6001h at 1489 length 4", "sends 4 bytes (1489 to 1492) of 6001h/0 \"Move\": no payload has more than 1490 bytes"),
        ("6002h/0 at 8 length 1", "sends 1 byte (8) of 6002h/0, and no element of the console takes it"),
        ("1200h/1 at 8 length 2", "sends 2 bytes (8 to 9) of 1200h/1, and no element of the console takes them"),
        ("6004h at 8 length 0", "sends no byte of 6004h/0"),
        ("U8", "is an Unsigned8, not an Unsigned64, and sends nothing"),
    ]
    .into_iter()
    .enumerate()
    {
        drive_says(&k.to_string(), element, wanted);
    }
}

#[test]
fn what_a_drive_has_beside_it_is_noted() {
    let drive = std::fs::read_to_string(rig("drive.rig")).unwrap();
    let drive = file("sends-more.rig", format!("{drive}\n1A01h Array\n1AFFh Array\n").as_bytes());
    let run = run(&["pair", &drive, &rig("mended.rig")]);
    let wanted = "note: the drive's 1A01h, 1AFFh are not looked at: a node that is polled sends 1A00h alone\n";
    assert!(run.out.ends_with(wanted), "{}", run.out);
    assert_eq!(run.status, 0);
}

#[test]
fn what_cannot_be_paired() {
    let two = CONSOLE.replace("1600h", "1401h Record\n1 U8 = 7\n1600h");
    let several = pair("several.rig", &two, &[]);
    assert!(several
        .err
        .contains("channels take nodes 5, 7: --node N says which of them the drive is"));
    assert_eq!((several.status, pair("several.rig", &two, &["--node", "5"]).status), (2, 0));
    let none = run(&["pair", &rig("ramp.rig"), &rig("ramp.rig")]);
    assert!(
        none.err.contains("expected an object 1A00h, what the drive sends; found none"),
        "{}",
        none.err
    );
}
