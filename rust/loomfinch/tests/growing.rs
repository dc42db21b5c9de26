//! What calls answer may grow, so a `match` on it must have a last arm: every public enum that is not closed says so.

use std::fs;
use std::path::{Path, PathBuf};

/// The values and accesses of DS 301, and what is inserted.
const CLOSED: [&str; 4] = ["AccessType", "Object", "ObjectValue", "ValueType"];

fn sources(folder: &Path) -> Vec<PathBuf> {
    let entries = fs::read_dir(folder).unwrap().map(|entry| entry.unwrap().path());
    entries.flat_map(|path| if path.is_dir() { sources(&path) } else { vec![path] }).collect()
}

/// The public enums of a source, each with the attributes above it.
fn enums(source: &str) -> Vec<(String, Vec<&str>)> {
    let lines: Vec<&str> = source.lines().collect();
    let named = lines.iter().enumerate().filter_map(|(at, line)| {
        let name = line.strip_prefix("pub enum ")?.split([' ', '<']).next()?;
        let above = lines[..at].iter().rev().take_while(|line| line.starts_with("#["));
        Some((name.to_owned(), above.copied().collect()))
    });
    named.collect()
}

#[test]
fn every_enum_that_is_not_closed_may_grow() {
    let mut closed = Vec::new();
    let mut growing = 0;
    for path in sources(&Path::new(env!("CARGO_MANIFEST_DIR")).join("src")) {
        for (name, attributes) in enums(&fs::read_to_string(path).unwrap()) {
            match attributes.contains(&"#[non_exhaustive]") {
                true => growing += 1,
                false => closed.push(name),
            }
        }
    }
    closed.sort();
    assert_eq!(closed, CLOSED);
    assert!(growing >= 11, "only {growing} enums may grow");
}
