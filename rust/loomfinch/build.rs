//! Finds the proved library. For x86-64 it is linked; for another processor the program that makes its calls is built,
//! with the compiler and the C library of the kit that made the library.

use std::env;
use std::path::{Path, PathBuf};
use std::process::{exit, Command};

fn main() {
    let package = Path::new(env!("CARGO_MANIFEST_DIR"));
    let repository =
        package.ancestors().nth(2).expect("the package is rust/loomfinch of the repository");
    let folder = match env::var_os("LOOMFINCH_LIB") {
        Some(folder) => PathBuf::from(folder),
        None => repository.join("target/staticlib"),
    };
    let library = folder.join("libloomfinch.a");
    println!("cargo:rerun-if-env-changed=LOOMFINCH_LIB");
    println!("cargo:rerun-if-changed={}", library.display());
    if !library.is_file() {
        stop(&format!(
            "{} is missing: make it with `./library`, or name its folder in LOOMFINCH_LIB, by an absolute path",
            library.display()
        ));
    }
    if env::var("CARGO_CFG_TARGET_ARCH").as_deref() == Ok("x86_64") {
        println!("cargo:rustc-link-search=native={}", folder.display());
        println!("cargo:rustc-link-lib=static=loomfinch");
    } else {
        build_worker(repository, &library);
    }
}

fn stop(why: &str) -> ! {
    eprintln!("loomfinch: {why}");
    exit(1);
}

/// Where the kit is: RATTLE_HOME, or above the folder of its command.
fn kit() -> PathBuf {
    println!("cargo:rerun-if-env-changed=RATTLE_HOME");
    if let Some(home) = env::var_os("RATTLE_HOME") {
        return home.into();
    }
    let path = env::var_os("PATH").unwrap_or_default();
    env::split_paths(&path)
        .filter_map(|folder| folder.join("rt").canonicalize().ok())
        .find_map(|command| Some(command.parent()?.parent()?.to_owned()))
        .unwrap_or_else(|| {
            stop("the library is for x86-64, and rt, whose kit has what runs it here, is not installed")
        })
}

fn build_worker(repository: &Path, library: &Path) {
    let host = env::consts::ARCH;
    let tools = kit().join("on").join(host).join("toolchain");
    let worker =
        PathBuf::from(env::var_os("OUT_DIR").expect("cargo sets it")).join("worker.x86_64");
    let source = Path::new(env!("CARGO_MANIFEST_DIR")).join("worker/worker.c");
    let header = repository.join("include");
    let c_headers = repository.join("oracle/shims/c");
    for input in [&source, &header, &c_headers] {
        println!("cargo:rerun-if-changed={}", input.display());
    }
    let built = Command::new(tools.join("bin/clang"))
        .args(["--target=x86_64-linux-gnu", "-O2", "-Wall", "-Wextra", "-Werror", "-fPIE", "-pie"])
        .args(["-nostdlib", "-nostdinc", "-fuse-ld=lld", "-B"])
        .arg(tools.join("bin"))
        .arg("-I")
        .arg(c_headers)
        .arg("-I")
        .arg(header)
        .arg("-o")
        .arg(&worker)
        .arg(tools.join("lib/Scrt1.o"))
        .arg(source)
        .arg(library)
        .arg(tools.join("lib/libc.so.6"))
        .status();
    match built {
        Ok(status) if status.success() => {}
        Ok(_) => stop("the program that makes the library's calls cannot be built"),
        Err(error) => {
            stop(&format!("{} does not start: {error}", tools.join("bin/clang").display()))
        }
    }
    println!("cargo:rustc-env=LOOMFINCH_EMULATOR={}", tools.join("bin/qemu-x86_64").display());
    println!("cargo:rustc-env=LOOMFINCH_C_LIBRARY={}", tools.join("lib").display());
    println!("cargo:rustc-env=LOOMFINCH_WORKER={}", worker.display());
}
