//! The program run as a person runs it.

#![allow(dead_code)]

pub mod captures;

use std::ffi::OsStr;
use std::path::{Path, PathBuf};
use std::process::{Command, Output};

pub struct Run {
    pub status: i32,
    pub out: String,
    pub err: String,
}

pub fn run<A: AsRef<OsStr>>(arguments: &[A]) -> Run {
    run_of(Command::new(env!("CARGO_BIN_EXE_loomfinch")).args(arguments).output().unwrap())
}

fn run_of(output: Output) -> Run {
    let text = |bytes: &[u8]| String::from_utf8_lossy(bytes).into_owned();
    let run = Run {
        status: output.status.code().unwrap_or(-1),
        out: text(&output.stdout),
        err: text(&output.stderr),
    };
    assert!(!run.err.contains("panicked"), "{}", run.err);
    run
}

/// A file of the repository's rigs folder.
pub fn rig(name: &str) -> String {
    let folder = Path::new(env!("CARGO_MANIFEST_DIR")).join("../../rigs");
    folder.join(name).to_string_lossy().into_owned()
}

/// A file with the given contents, for one test.
pub fn file(name: &str, contents: &[u8]) -> String {
    let path = PathBuf::from(env!("CARGO_TARGET_TMPDIR")).join(name);
    std::fs::write(&path, contents).unwrap();
    path.to_string_lossy().into_owned()
}
