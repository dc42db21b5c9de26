//! The headers for C held against the crate: names, numbers and versions.

use loomfinch::{AccessType, Checked, Edition, Fault, Kind, Refusal, ValueType};
use std::path::Path;
use std::process::Command;

fn file(name: &str) -> String {
    let path = format!("{}/../../include/{name}", env!("CARGO_MANIFEST_DIR"));
    std::fs::read_to_string(path).unwrap()
}

/// `UnicodeString` as a header writes it: `UNICODE_STRING`.
fn constant(name: &str) -> String {
    let mut constant = String::new();
    for c in name.chars() {
        if c.is_ascii_uppercase() && !constant.is_empty() {
            constant.push('_');
        }
        constant.push(c.to_ascii_uppercase());
    }
    constant
}

/// Every refusal of the crate, rising by number.
fn refusals() -> impl Iterator<Item = Refusal> {
    (0..=u8::MAX).filter_map(Refusal::from_number)
}

#[test]
fn the_crate_has_every_refusal_of_the_header() {
    let header = file("loomfinch.h");
    let answers = header.split("enum {").nth(1).unwrap().split('}').next().unwrap();
    let numbers = answers.split(" = ").skip(1).map(|rest| {
        let digits = rest.find(|c: char| !c.is_ascii_digit()).unwrap_or(rest.len());
        rest[..digits].parse::<u8>().unwrap()
    });
    let done_and_restore_requested = [0, 19];
    let wanted = numbers.filter(|number| !done_and_restore_requested.contains(number));
    assert!(refusals().map(u8::from).eq(wanted));
}

#[test]
fn constants_have_the_crate_s_numbers() {
    let header = file("loomfinch.h");
    let has = |name: &str, number: u8| {
        let wanted = format!("LOOMFINCH_{name} = {number}");
        let ends =
            |at: usize| !header[at + wanted.len()..].starts_with(|c: char| c.is_ascii_digit());
        assert!(header.match_indices(&wanted).any(|(at, _)| ends(at)), "{wanted}");
    };
    for number in 0..=20 {
        has(&constant(ValueType::from_number(number).unwrap().name()), number);
    }
    for refusal in refusals() {
        has(&constant(refusal.name()), refusal.number());
    }
    for number in 33..=38 {
        has(&constant(Fault::from_number(number).unwrap().name()), number);
    }
    for (checked, number) in [(Checked::NoSender, 31), (Checked::NoList, 32), (Checked::TooFar, 39)]
    {
        has(&constant(checked.name()), number);
    }
    let access = [
        AccessType::ReadOnly,
        AccessType::WriteOnly,
        AccessType::WriteOnlyStore,
        AccessType::ReadWrite,
        AccessType::ReadWriteStore,
        AccessType::Constant,
        AccessType::Conditional,
    ];
    for (access, number) in access.into_iter().zip(0..) {
        has(&format!("ACCESS_{}", constant(&format!("{access:?}"))), number);
    }
    has("ACCESS_NONE", 7);
    for (kind, number) in [Kind::Variable, Kind::Array, Kind::Record].into_iter().zip(0..) {
        has(&constant(&format!("{kind:?}")), number);
    }
    for number in [Edition::One, Edition::Two].map(Edition::number) {
        has(&format!("EDITION_{number}"), number);
    }
}

/// What a macro for events takes apart, as the header writes it.
fn event_part(header: &str, name: &str) -> String {
    let start = format!("#define LOOMFINCH_EVENT_{name}(e) ");
    let line = header.lines().find_map(|line| line.strip_prefix(&start));
    line.unwrap_or_else(|| panic!("{name}")).to_owned()
}

#[test]
fn the_parts_of_an_event_are_taken_from_64_bits() {
    // Where each part begins and how many bits it has, as docs/RULES.md R11.14 puts them together.
    let header = file("loomfinch.h");
    assert_eq!(event_part(&header, "KIND"), "((uint64_t)(e) & 0xF)");
    for (name, start, bits) in [
        ("ELEMENT", 4, 8),
        ("INDEX", 12, 16),
        ("START", 28, 13),
        ("LENGTH", 41, 13),
        ("PAYLOAD", 54, 10),
    ] {
        let wanted = format!("((uint64_t)(e) >> {start} & 0x{:X})", (1 << bits) - 1);
        let highest = format!("((uint64_t)(e) >> {start})");
        let found = event_part(&header, name);
        assert!(found == wanted || (start + bits == 64 && found == highest), "{found}");
    }
    for (name, part) in [("NEEDED", "START"), ("HAD", "LENGTH"), ("PLACE", "START")] {
        assert_eq!(event_part(&header, name), format!("LOOMFINCH_EVENT_{part}(e)"));
    }
}

#[test]
fn the_terms_of_use_are_said() {
    let header = file("loomfinch.h");
    let terms = header.split("*/").next().unwrap();
    for term in
        ["Answers", "Numbers", "Null", "Aliasing", "Alignment", "Threads", "Stack", "System"]
    {
        assert!(terms.contains(&format!("\n * {term:<11}")), "{term}");
    }
}

#[test]
fn every_answer_has_its_name() {
    let header = file("loomfinch.h");
    let names = header.split("loomfinch_answer_name").nth(1).unwrap();
    let names: Vec<&str> = names.split('"').skip(1).step_by(2).collect();
    let last = refusals().map(Refusal::number).max().unwrap();
    let answers = (0..=last).map(|number| match number {
        0 => "Done",
        19 => "RestoreRequested",
        _ => Refusal::from_number(number).map_or("?", Refusal::name),
    });
    let faults = (33..=38).map(|number| Fault::from_number(number).unwrap().name());
    let mut wanted: Vec<&str> = answers.collect();
    wanted.extend(["NoSender", "NoList"]);
    wanted.extend(faults);
    wanted.extend(["TooFar", "?"]);
    assert_eq!(names[..wanted.len()], wanted);
}

#[test]
fn there_is_one_version() {
    let version = env!("CARGO_PKG_VERSION");
    let header = file("loomfinch.h");
    assert!(header.contains(&format!("#define LOOMFINCH_VERSION \"{version}\"\n")));
    let parts = ["MAJOR", "MINOR", "PATCH"].into_iter().zip(version.split('.'));
    for (part, number) in parts {
        assert!(header.contains(&format!("#define LOOMFINCH_VERSION_{part} {number}\n")), "{part}");
    }
    assert!(file("loomfinch.pc").contains(&format!("\nVersion: {version}\n")));
}

#[test]
fn pkg_config_leads_to_the_header_and_the_library() {
    let include = Path::new(env!("CARGO_MANIFEST_DIR")).join("../../include");
    let asked = Command::new("pkg-config")
        .args(["--cflags", "--libs", "loomfinch"])
        .env("PKG_CONFIG_PATH", &include)
        .output();
    let answer = match asked {
        Ok(asked) => asked,
        // Where pkg-config is not installed, the file is read as it would.
        Err(_) => {
            return assert!(file("loomfinch.pc").contains("\nLibs: -L${libdir} -lloomfinch\n"))
        }
    };
    let text = String::from_utf8_lossy(&answer.stdout).into_owned();
    assert!(answer.status.success(), "{}", String::from_utf8_lossy(&answer.stderr));
    let folder = |flag: &str| {
        let found = text.split_whitespace().find_map(|word| word.strip_prefix(flag));
        Path::new(found.unwrap_or_else(|| panic!("{text}"))).to_owned()
    };
    assert!(folder("-I").join("loomfinch.h").is_file(), "{text}");
    // The library may not be made yet: its folder is named from the one that holds both.
    let library = folder("-L");
    assert!(library.ends_with("target/staticlib"), "{text}");
    let root = library.ancestors().nth(2).unwrap().canonicalize().unwrap();
    assert_eq!(root.join("include"), include.canonicalize().unwrap());
    assert!(text.split_whitespace().any(|word| word == "-lloomfinch"), "{text}");
}

#[test]
fn every_call_over_the_lent_slices_has_one_over_the_struct() {
    let (header, over) = (file("loomfinch.h"), file("loomfinch_dictionary.h"));
    let calls = header.lines().filter_map(|line| line.strip_prefix("uint64_t loomfinch_"));
    let mut found = 0;
    for name in calls.map(|rest| rest.split('(').next().unwrap()) {
        let plain = ["decode", "encode", "from_u64", "to_u64"].contains(&name);
        found += usize::from(!plain);
        assert!(plain || over.contains(&format!(" loomfinch_dictionary_{name}(")), "{name}");
    }
    assert_eq!(found, 19);
}
