//! The rig form: what it says, and what it says is wrong.

use super::*;

fn value_of(line: &str) -> Value {
    let rig = parse(format!("6000h Variable {line}").as_bytes())
        .unwrap_or_else(|problems| panic!("{}: {}", line, problems[0].text));
    rig.objects[&0x6000].values[0].clone()
}

#[test]
fn the_set_up_of_the_cases() {
    let text = "
        1400h Record          # who sends
          1 Unsigned8 = 5
          2 Unsigned8 = 10h
        1600h Array
          1 0010 0000 0000 6000h
          2 6200h/3 at 2 length 4
          3 0020_0010_0003_6200h
        6000h Variable Unsigned16
        6200h Array
          1..3 Unsigned32
        1C81h Variable OctetString = [00 * 32]
    ";
    let rig = parse(text.as_bytes()).unwrap();
    assert_eq!(rig.objects.len(), 5);
    let words: Vec<Option<u64>> = rig.objects[&0x1600].values.iter().map(Value::unsigned).collect();
    assert_eq!(
        words,
        [0x0010_0000_0000_6000, 0x0020_0010_0003_6200, 0x0020_0010_0003_6200].map(Some)
    );
    assert_eq!(rig.objects[&0x6200].values.len(), 3);
    assert_eq!(rig.objects[&0x1C81].values[0].room, 32);
    assert_eq!((rig.named_sender(0), rig.named_sender(1)), (Some(5), None));
}

#[test]
fn all_parts_of_an_object_in_any_order() {
    let line = "6000h var rws \"Ramp\" u16 default = 7 ms = 2500 room 3";
    let rig = parse(line.as_bytes()).unwrap();
    let object = &rig.objects[&0x6000];
    assert_eq!((object.name.as_str(), object.access), ("Ramp", Some(AccessType::ReadWriteStore)));
    assert_eq!(object.default.as_ref().unwrap().bytes, [7, 0]);
    let value = &object.values[0];
    assert_eq!((value.bytes.as_slice(), value.room, value.milliseconds), (&[0xC4, 9][..], 3, true));
}

#[test]
fn values_of_every_type() {
    for (line, bytes) in [
        ("Boolean = true", &[1][..]),
        ("Boolean = 255", &[255]),
        ("Integer8 = -128", &[0x80]),
        ("INTEGER16 = -1", &[0xFF, 0xFF]),
        ("Integer32 = +5", &[5, 0, 0, 0]),
        ("Integer64 = -2", &[0xFE, 255, 255, 255, 255, 255, 255, 255]),
        ("Unsigned8", &[0]),
        ("Unsigned16 = 0x0102", &[2, 1]),
        ("Unsigned32 = 90_000", &[0x90, 0x5F, 1, 0]),
        ("Unsigned64 = 6000h at 1 length 2", &[0, 0x60, 0, 0, 8, 0, 16, 0]),
        ("Real32 = 1.0", &[0, 0, 0x80, 0x3F]),
        ("Real32 = 7FC00001h", &[1, 0, 0xC0, 0x7F]),
        ("Real64 = -2", &[0, 0, 0, 0, 0, 0, 0, 0xC0]),
        ("VISIBLE_STRING = \"Acte 1 é\"", "Acte 1 é".as_bytes()),
        ("VisibleString = [41 42]", b"AB"),
        ("OctetString = []", &[]),
        ("UnicodeString = \"é!\"", &[0xE9, 0, 0x21, 0]),
        ("Domain = [00*2 FF]", &[0, 0, 255]),
        ("TimeOfDay = 1 ms 2 days", &[1, 0, 0, 0, 2, 0]),
        ("TimeDifference = 3 days", &[0, 0, 0, 0, 3, 0]),
        ("NetTime = 1 s 2 ns", &[1, 0, 0, 0, 2, 0, 0, 0]),
        ("RelativeTime = 9 us", &[9, 0, 0, 0, 0, 0, 0, 0]),
        ("RelativeTime = 9", &[9, 0, 0, 0, 0, 0, 0, 0]),
        ("MacAddress = 00:60:65:01:02:0A", &[0, 0x60, 0x65, 1, 2, 10]),
        ("IpAddress = 192.168.100.5", &[192, 168, 100, 5]),
        ("IpAddress = [01 02 03 04]", &[1, 2, 3, 4]),
    ] {
        assert_eq!(value_of(line).bytes, bytes, "{line}");
    }
}

/// The error of a rig whose third line is the given one.
fn error_of(line: &str) -> Problem {
    let text = format!("# a rig\n1600h Array\n{line}\n");
    match parse(text.as_bytes()) {
        Ok(_) => panic!("{line} was taken"),
        Err(problems) => {
            assert_eq!(problems.len(), 1, "{line}: {problems:?}");
            problems[0].clone()
        }
    }
}

#[test]
fn errors_name_the_line_and_what_was_expected() {
    for (line, wanted) in [
        ("Variable", "expected an index, as in 6000h, an element's number, as in 1, 'node' or 'edition', found 'Variable'"),
        ("\"6000h\"", "expected an index, as in 6000h, an element's number, as in 1, 'node' or 'edition', found the text \"6000h\""),
        ("6000h", "expected Variable, Array or Record, found the end of the line"),
        ("6000h Varible", "expected Variable, Array or Record, found 'Varible'"),
        ("6000h Variable", "expected a type, such as Unsigned16"),
        ("6000h Variable U16 rww", "expected a type, a \"name\", an access, '=', 'room', 'ms', 'default' or 'range', found 'rww'"),
        ("6000h Variable U16 U8", "expected one type, found a second"),
        ("6000h Variable U16 = 1 = 2", "expected one value, found a second"),
        ("6000h Variable U16 \"a\" \"b\"", "expected one name, found a second"),
        ("6000h Variable = 5", "expected a type before '=', as in Unsigned16 = 2500"),
        ("6000h Variable U16 = 65536", "expected a number from 0 to 65535 for an Unsigned16, found '65536'"),
        ("6000h Variable U16 = -1", "expected a number from 0 to 65535 for an Unsigned16, found '-1'"),
        ("6000h Variable I8 = 128", "expected a number from -128 to 127 for an Integer8, found '128'"),
        ("6000h Variable U16 =", "expected a number from 0 to 65535 for an Unsigned16, found the end of the line"),
        ("6000h Variable U16 = [00]", "expected 2 bytes in brackets for an Unsigned16, found 1 byte in brackets"),
        ("6000h Variable VisibleString", "expected a room for a VisibleString, as in room 40"),
        ("6000h Variable VisibleString = 5", "expected text in double quotes for a VisibleString, found '5'"),
        ("6000h Variable VisibleString room 2 = \"abc\"", "the value has 3 bytes, its room only 2"),
        ("6000h Variable VisibleString = [FF]", "expected text in UTF-8 in the brackets for a VisibleString: byte 0 of the text, FFh, is no UTF-8"),
        ("6000h Variable VisibleString = [44 E9 63]", "expected text in UTF-8 in the brackets for a VisibleString: byte 2 of the text, 63h, cannot follow E9h, which stands after \"D\"; the text may be Latin-1"),
        ("6000h Variable U8 default VisibleString = [44 C3]", "expected text in UTF-8 in the brackets for a VisibleString: the text ends at byte 2, within the character begun by C3h after \"D\""),
        ("6000h Variable UnicodeString = [FF]", "expected an even number of bytes in the brackets"),
        ("6000h Variable U16 room 1491", "expected a room of 0 to 1490 bytes, found '1491'"),
        ("6000h Variable Real32 ms", "expected 'ms' only beside an Unsigned type, found it beside a Real32"),
        ("6000h Variable U16 default 5", "expected '=' and the default's value, found '5'"),
        ("6000h Array default = 5", "expected a type behind 'default', as in default Unsigned16 = 2500"),
        ("6000h Array Unsigned16", "expected elements on their own lines, as in 1 Unsigned16: an Array has no value"),
        ("6000h Variable U8 \"a name of thirty-three characters\"", "expected a name of at most 32 bytes, found 33"),
        ("1600h Array", "expected each index once, found 1600h again (first on line 2)"),
        ("2 Unsigned16", "expected element 1, found 2"),
        ("1..255 Unsigned16", "expected elements up to 254 at most, rising, found 1..255"),
        ("1 Unsignd16", "expected a type, as in Unsigned16, or a mapping, as in 6000h/0 at 0 length 2, found 'Unsignd16'"),
        ("1 6000h/0 at 0", "expected 'length' and the field's length in bytes, found the end of the line"),
        ("1 6000h/256 at 0 length 2", "expected a target, as in 6000h/0, found '6000h/256'"),
        ("1 6000h/0 at 9000 length 2", "expected the field's offset as a number of bytes up to 8191"),
        ("1 6000h/0 at 0 length two", "expected the field's length as a number of bytes up to 8191"),
        ("1 0010 0000 6000h", "expected a mapping, as in 6000h/0 at 0 length 2, or a mapping word, as in 0010 0000 0000 6000h, found '0010'"),
        ("1 6000h", "expected a mapping, as in 6000h/0 at 0 length 2, or a mapping word"),
        ("1 2500", "expected a mapping, as in 6000h/0 at 0 length 2, or a mapping word"),
        ("1", "expected a type, such as Unsigned16"),
        ("6000h Variable U16 ro rw", "expected one access, found a second"),
        ("6000h Variable U16 ms ms", "expected one ms, found a second"),
        ("6000h Variable U16 room 1 room 2", "expected one room, found a second"),
        ("6000h Variable U16 default = 1 default = 2", "expected one default, found a second"),
        ("6000h Variable IpAddress = 1.2.3", "expected an address, as in 192.168.100.5 for an IpAddress, found '1.2.3'"),
        ("6000h Variable MacAddress = 1:2:3:4:5:G", "expected an address, as in 00:60:65:01:02:03 for a MacAddress"),
        ("6000h Variable NetTime = 5 ns 1 s", "expected seconds and nanoseconds, as in 12 s 500 ns for a NetTime"),
        ("6000h Variable Real32 = inf", "expected a decimal number in its range, or its bits as 3F800000h for a Real32"),
        ("6000h Variable Real32 = 1e40", "expected a decimal number in its range, or its bits as 3F800000h for a Real32"),
        ("6001 Variable U16", "expected an index marked as hexadecimal, as in 6000h, found '6001'"),
        ("6000h Variable Boolean = yes", "expected true, false or a number from 0 to 255 for a Boolean, found 'yes'"),
        ("6000h Variable U8 = 1 [", "expected a closing ]"),
        ("1h 6000h/0 at 0 length 2", "expected an element's number in decimal, as in 1, or an object's kind behind its index, found '1h'"),
        ("0Ah 6000h/0 at 0 length 2", "expected an element's number in decimal, as in 10, or an object's kind"),
    ] {
        let problem = error_of(line);
        assert_eq!(problem.line, Some(3), "{}: {}", line, problem.text);
        assert!(problem.text.starts_with(wanted), "{}: {}", line, problem.text);
    }
}

#[test]
fn names_of_elements_and_nodes() {
    let text = "rig 1\nnode 5 \"Drehbühne\"\n6200h Array \"Move times\"\n1 U32 ms\n2 U32 \"Revolve move\" ms\n\
                1600h Array\n1 6200h/2 at 0 length 4 \"Move\"\nnode 240 \"Pult\"\n";
    let rig = parse(text.as_bytes()).unwrap();
    assert_eq!((rig.nodes[&5].as_str(), rig.nodes[&240].as_str()), ("Drehbühne", "Pult"));
    let names = [(0, "Move times"), (1, "Move times"), (2, "Revolve move"), (3, "Move times")];
    for (sub_index, name) in names {
        assert_eq!(rig.name(0x6200, sub_index), name);
    }
    assert!(rig.objects[&0x6200].values[1].milliseconds);
    assert_eq!(rig.name(0x1600, 1), "Move");
    for (text, wanted) in [
        ("rig 2\n6000h Variable U8", "expected version 1 of the rig form, found 2"),
        ("rig\n6000h Variable U8", "expected the version of the rig form, as in rig 1"),
        (
            "6000h Variable U8\nrig 1",
            "expected 'rig' and the form's version on the first line only",
        ),
        ("node 5 \"a\"\nnode 5 \"b\"", "expected one name for each node, found node 5 again"),
        ("node 0 \"a\"", "expected a node from 1 to 240"),
        ("node 5", "expected the node's name in double quotes, found the end of the line"),
        ("node 5 \"a\" 6", "expected the end of the line, found '6'"),
        ("6000h Array\n1 U8 \"a\" \"b\"", "expected one name, found a second"),
    ] {
        let problem = &parse(text.as_bytes()).unwrap_err()[0];
        assert!(problem.text.starts_with(wanted), "{}: {}", text, problem.text);
    }
}

#[test]
fn errors_name_the_column() {
    for (line, column) in [
        ("Variable", 1),
        ("  6000h  Varible", 10),
        ("6000h Variable", 1),
        ("6000h Variable \"é\" rww", 20),
        ("6000h Variable U16 = 65536", 22),
        ("6000h Variable U16 =   # none", 21),
        ("6000h Variable NetTime = 5 ns 1 s", 26),
        ("6000h Variable U16 ms ms", 23),
        ("6000h Variable VisibleString = \"a\\q\"", 32),
        ("1 6000h/0 at 9000 bytes length 2", 14),
        ("1 6000h/0 at 0 length two bytes", 23),
        ("1 6000h/0 at 0", 15),
        ("2 Unsigned16", 1),
    ] {
        let problem = error_of(line);
        assert_eq!(problem.column, Some(column), "{}: {}", line, problem.text);
    }
}

#[test]
fn all_errors_of_a_file_are_told() {
    let text = "1600h Array\n1 6000h/0 at 0\n2 6000h/0 at 0 length 2\n4 6000h at 2 length x\n5 U8\n6000h Varible\n1 U8\n2 U9\n\
                6001h Variable U8\n1 U8\n2 U8\n6002 Variable U8\n6001h Variable U8\n6003h Array\n1h U8\n2 U8\n";
    let problems = parse(text.as_bytes()).unwrap_err();
    let found: Vec<(usize, &str)> = problems
        .iter()
        .map(|problem| (problem.line.unwrap(), problem.text.split(',').next().unwrap()))
        .collect();
    let wanted = [
        (2, "expected 'length' and the field's length in bytes"),
        (4, "expected element 3"),
        (4, "expected the field's length as a number of bytes up to 8191"),
        (6, "expected Variable"),
        (8, "expected a type"),
        (10, "expected a new object: a Variable has no elements"),
        (12, "expected an index marked as hexadecimal"),
        (13, "expected each index once"),
        (15, "expected an element's number in decimal"),
    ];
    assert_eq!(found, wanted);
}

#[test]
fn texts_that_no_room_holds() {
    let text = "x".repeat(1491);
    let value = error_of(&format!("6000h Variable VisibleString = \"{text}\""));
    assert_eq!(
        (value.line, value.text.as_str()),
        (Some(3), "expected at most 1490 bytes, found 1491")
    );
    let default = error_of(&format!("6000h Variable U8 default VisibleString = \"{text}\""));
    let wanted = "expected at most 1490 bytes in a default, found 1491";
    assert_eq!((default.line, default.text.as_str()), (Some(3), wanted));
}

#[test]
fn elements_need_a_list() {
    let first = parse(b"1 Unsigned16").unwrap_err().remove(0);
    assert_eq!(
        (first.line, first.text.as_str()),
        (Some(1), "expected an object, as in 1600h Array, before its elements")
    );
    let variable = parse(b"6000h Variable U8\n1 U8").unwrap_err().remove(0);
    assert_eq!(
        (variable.line, variable.text.as_str()),
        (Some(2), "expected a new object: a Variable has no elements")
    );
}

#[test]
fn files_that_are_empty_or_no_text() {
    for text in ["", "\n\n# nothing\n", "\u{FEFF}"] {
        assert_eq!(parse(text.as_bytes()).unwrap_err()[0].line, None);
    }
    for (file, shown) in [
        (
            &b"# one\n# two \xFC\n# three \xC3\xA9"[..],
            "2:7: expected text in UTF-8: byte 6 of the line, FCh, is no UTF-8 after \"# two \"; the line may be Latin-1",
        ),
        (
            b"\xFF\xFE6\x000\x00",
            "1:1: expected text in UTF-8: byte 0 of the line, FFh, is no UTF-8",
        ),
        (
            b"\xEF\xBB\xBF6000h Variable U8 \"Dur\xE9e\"\n",
            "1:23: expected text in UTF-8: byte 23 of the line, 65h, cannot follow E9h, which stands after \
             ..\"00h Variable U8 \\\"Dur\"; the line may be Latin-1",
        ),
        (
            b"# \xC3\xA9\n\xE2\x82\n",
            "2:1: expected text in UTF-8: the line ends at byte 2, within the character begun by E2h 82h",
        ),
    ] {
        let problem = parse(file).unwrap_err().remove(0);
        assert_eq!(problem.shown("x.rig"), format!("x.rig:{shown}"));
    }
}

#[test]
fn line_ends_and_marks_of_other_systems() {
    let rig = parse("\u{FEFF}6000h Variable U8\r\n6001h Variable U8\r\n".as_bytes()).unwrap();
    assert_eq!(rig.objects.len(), 2);
}

#[test]
fn the_bounds_of_a_rig() {
    let objects: String = (0..=1024).map(|k| format!("{k:04X}h Variable U8\n")).collect();
    let problem = parse(objects.as_bytes()).unwrap_err().remove(0);
    assert_eq!((problem.line, problem.column), (Some(1025), Some(1)));
    assert!(problem.text.starts_with("expected at most 1024 objects"), "{}", problem.text);
    let lists: String = (0..25).map(|k| format!("  {k:04X}h Array\n1..254 U8\n")).collect();
    let problem = parse(lists.as_bytes()).unwrap_err().remove(0);
    assert_eq!((problem.line, problem.column), (Some(49), Some(3)));
    assert!(problem.text.starts_with("expected at most 6144 values"), "{}", problem.text);
    let rooms: String = (0..22).map(|k| format!("{k:04X}h Variable Domain room 1490\n")).collect();
    assert!(parse(rooms.as_bytes()).unwrap_err()[0]
        .text
        .starts_with("expected at most 32768 bytes"));
}
