//! Compares the port with the unchanged Rust. Arguments: the seed, the port's
//! program and, where only one part is to be run, that part: codec, dictionary,
//! check, edition-2 or bench, which times calls and compares nothing. Without the port: the arguments
//! --histories, --stores, --payloads and --checks print histories with the answers that they must
//! give.

mod call;
mod decoded;
mod dictionary;
mod fault;
mod hex;
mod inputs;
mod mapping;
mod original;
mod port;
mod random;
mod report;
mod shrink;
mod sorts;
mod sweep;
mod texts;
mod values;
mod words;

use port::Port;
use random::Random;
use std::process::ExitCode;

fn main() -> ExitCode {
    let mut arguments = std::env::args().skip(1);
    let first = arguments.next();
    let printed = PRINTED.iter().find(|(argument, _)| first.as_deref() == Some(argument));
    if let Some((_, print)) = printed {
        print();
        return ExitCode::SUCCESS;
    }
    let Some(seed) = first.and_then(|seed| seed.parse().ok()) else {
        eprintln!("oracle: the seed is a number below 2^64");
        return ExitCode::from(2);
    };
    let program = arguments.next().unwrap_or_default();
    let Ok(mut port) = Port::start(&program) else {
        eprintln!("oracle: the port's program cannot be started");
        return ExitCode::from(2);
    };
    let only = arguments.next();
    if only.as_deref() == Some("bench") {
        return bench(&program, &mut port, seed);
    }
    let chosen = |part: &str| only.as_deref().is_none_or(|only| only == part);
    if !PARTS.iter().any(|(part, _)| chosen(part)) {
        eprintln!("oracle: the parts are codec, dictionary, check, edition-2 and bench");
        return ExitCode::from(2);
    }
    // First, so that a run that does not come back can be repeated too.
    println!("oracle: seed {seed}");
    let mut totals = (0, 0);
    // Each part begins anew with the seed, so that it gives the same by itself.
    for (part, compare) in PARTS {
        if chosen(part) {
            let (compared, differing) = compare(&mut port, &mut Random::new(seed));
            totals = (totals.0 + compared, totals.1 + differing);
        }
    }
    println!("oracle: {} comparisons, {} differences (seed {seed})", totals.0, totals.1);
    ExitCode::from(u8::from(totals.1 > 0))
}

const PRINTED: [(&str, fn()); 4] = [
    ("--histories", dictionary::print_stored),
    ("--stores", dictionary::print_stores),
    ("--payloads", dictionary::print_payloads),
    ("--checks", dictionary::print_checks),
];

type Part = (&'static str, fn(&mut Port, &mut Random) -> (u64, u64));

const PARTS: [Part; 4] = [
    ("codec", compare_codec),
    ("dictionary", dictionary::compare),
    ("check", dictionary::compare_checks),
    ("edition-2", dictionary::compare_edition_2),
];

/// Times, with a word on what the port's are worth.
fn bench(program: &str, port: &mut Port, seed: u64) -> ExitCode {
    if std::fs::read_to_string(program).is_ok_and(|start| start.contains("qemu-x86_64")) {
        println!(
            "The port runs under an emulator: its times are not those of an x86-64 processor."
        );
    }
    dictionary::bench(port, &mut Random::new(seed));
    ExitCode::SUCCESS
}

fn compare_codec(port: &mut Port, random: &mut Random) -> (u64, u64) {
    let mut report = report::Report::new(port);
    values::compare(&mut report, random);
    texts::compare(&mut report, random);
    words::compare(&mut report, random);
    report.finish()
}
