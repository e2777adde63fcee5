//! Links the proved archive: `libmuon.a`, as it is installed, or `libcapi.a`,
//! as `rt lib` in crates/capi writes it, from the directory in `MUON_LIB_DIR`.  A
//! relative one is relative to this package; none is the repository's.  For another
//! target than x86-64 Linux there is none, and the build stops.

use std::path::{Path, PathBuf};
use std::{env, process};

const LIBRARIES: [&str; 2] = ["muon", "capi"];
const OF_THE_REPOSITORY: &str = "../crates/capi/out";
/// What cargo tells of the one target that there is an archive for.
const SERVED: [(&str, &str); 3] = [
    ("CARGO_CFG_TARGET_ARCH", "x86_64"),
    ("CARGO_CFG_TARGET_OS", "linux"),
    ("CARGO_CFG_TARGET_POINTER_WIDTH", "64"),
];

fn directory() -> PathBuf {
    let package = PathBuf::from(env::var_os("CARGO_MANIFEST_DIR").expect("cargo sets it"));
    match env::var_os("MUON_LIB_DIR") {
        Some(told) if !told.is_empty() => package.join(told),
        _ => package.join(OF_THE_REPOSITORY),
    }
}

fn archive(directory: &Path, library: &str) -> PathBuf {
    directory.join(format!("lib{library}.a"))
}

/// Else the linker would pass over the archive, and miss each call by its name.
fn stop_on_another_target() {
    let is_other = |(variable, value): (&str, &str)| env::var(variable).as_deref() != Ok(value);
    if SERVED.into_iter().any(is_other) {
        let target = env::var("TARGET").unwrap_or_default();
        eprintln!("the archive of muon is for x86-64 Linux and for nothing else, not for {target}");
        process::exit(1);
    }
}

fn say_what_to_do(directory: &Path) {
    eprintln!(
        "neither libmuon.a nor libcapi.a is in {}",
        directory.display()
    );
    eprintln!(
        "Set MUON_LIB_DIR to the directory of one, best an absolute one: a relative one is relative to the package muon."
    );
    eprintln!(
        "In the repository `rt lib` in crates/capi writes libcapi.a, which is found without it."
    );
}

fn main() {
    println!("cargo:rerun-if-changed=build.rs");
    println!("cargo:rerun-if-env-changed=MUON_LIB_DIR");
    stop_on_another_target();
    let directory = directory();
    for library in LIBRARIES {
        let archive = archive(&directory, library);
        println!("cargo:rerun-if-changed={}", archive.display());
    }
    let is_there = |library: &&str| archive(&directory, library).is_file();
    let Some(library) = LIBRARIES.into_iter().find(is_there) else {
        say_what_to_do(&directory);
        process::exit(1);
    };
    println!("cargo:rustc-link-search=native={}", directory.display());
    println!("cargo:rustc-link-lib=static={library}");
}
