//! Finds the archive that `sh lib/build.sh` makes, and says so where it is missing.

use std::env;
use std::fs;
use std::path::{Path, PathBuf};
use std::process::exit;

const ARCHIVE: &str = "libyurgamysh.a";
const ABOUT: &str = "libyurgamysh.txt";

fn main() {
    println!("cargo:rerun-if-env-changed=YURGAMYSH_LIB");
    let folders = folders();
    for folder in &folders {
        for file in [ARCHIVE, ABOUT] {
            println!("cargo:rerun-if-changed={}", folder.join(file).display());
        }
    }
    let Some(folder) = folders.iter().find(|folder| folder.join(ARCHIVE).is_file()) else {
        missing(&folders);
    };
    read_about(folder);
    println!("cargo:rustc-link-search=native={}", folder.display());
    println!("cargo:rustc-link-lib=static=yurgamysh");
}

/// Where the archive is looked for: the folder that YURGAMYSH_LIB names, or else target/lib of the
/// repository that this crate stands in.
///
/// Cargo runs this program in the crate's own folder. A relative path is meant from the folder where
/// cargo was called, which the shell says in PWD; it is tried from there first, then from the crate's.
fn folders() -> Vec<PathBuf> {
    let here = PathBuf::from(env::var_os("CARGO_MANIFEST_DIR").expect("cargo sets CARGO_MANIFEST_DIR"));
    match env::var_os("YURGAMYSH_LIB").map(PathBuf::from) {
        Some(named) if named.is_absolute() => vec![named],
        Some(named) if !named.as_os_str().is_empty() => {
            println!("cargo:rerun-if-env-changed=PWD");
            let called = env::var_os("PWD").map(PathBuf::from).filter(|folder| folder.is_absolute());
            let mut all: Vec<PathBuf> = called.into_iter().chain([here]).map(|f| f.join(&named)).collect();
            all.dedup();
            all
        }
        _ => {
            let there = here.join("../../target/lib");
            vec![there.canonicalize().unwrap_or(there)]
        }
    }
}

fn missing(folders: &[PathBuf]) -> ! {
    for folder in folders {
        eprintln!("yurgamysh: there is no {ARCHIVE} in {}", folder.display());
    }
    eprintln!(
        "  make it:            sh lib/build.sh      (in the repository's folder; it needs the Rattle kit)"
    );
    eprintln!("  or say where it is: YURGAMYSH_LIB=FOLDER (the folder that holds {ARCHIVE};");
    eprintln!(
        "                      a relative one counts from where cargo was called, then from the crate's folder)"
    );
    exit(1)
}

/// Goes by what the build script wrote beside the archive: it must be for the machine that cargo
/// builds for, and one that is for trying only is told to whoever builds.
fn read_about(folder: &Path) {
    let Ok(about) = fs::read_to_string(folder.join(ABOUT)) else {
        return;
    };
    let line = |name: &str| about.lines().find_map(|line| line.strip_prefix(name)).map(str::trim);
    let target = env::var("CARGO_CFG_TARGET_ARCH").expect("cargo sets CARGO_CFG_TARGET_ARCH");
    if let Some(machine) = line("machine:") {
        if machine != target {
            eprintln!(
                "yurgamysh: {ARCHIVE} in {} is for {machine}, and cargo builds for {target}",
                folder.display()
            );
            eprintln!("  make it on x86-64, where the Rattle kit runs: sh lib/build.sh, and for Arm sh lib/build.sh --trying");
            exit(1)
        }
    }
    if let Some(kind) = line("kind:") {
        if kind != "proved" {
            println!("cargo:warning=this archive is not the proved one: {kind}");
        }
    }
}
