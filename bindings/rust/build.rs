//! Finds or makes the static library `libcapi.a`, and has it linked.

use std::env;
use std::fs;
use std::path::{Path, PathBuf};
use std::process::{exit, Command};

/// Names the folder of a `libcapi.a` that is to be linked as it is. A relative
/// name counts from the repository's root.
const FOLDER: &str = "YEGETMUR_LIB_DIR";

fn main() {
    let package = PathBuf::from(env::var_os("CARGO_MANIFEST_DIR").expect("cargo sets it"));
    let root = package.join("../..");
    println!("cargo:rerun-if-env-changed={FOLDER}");
    let folder = match env::var_os(FOLDER) {
        Some(folder) if !folder.is_empty() => root.join(folder),
        _ => prove_and_build(&root),
    };

    let archive = folder.join("libcapi.a");
    if !archive.is_file() {
        fail(&format!("{}: no such file", archive.display()));
    }
    println!("cargo:rerun-if-changed={}", archive.display());
    println!("cargo:rustc-link-search=native={}", folder.display());
    println!("cargo:rustc-link-lib=static=capi");
}

/// Runs `tools/staticlib`, which proves the library and then compiles it.
/// What has not changed since it was last proved is not proved again.
fn prove_and_build(root: &Path) -> PathBuf {
    let machine = env::var("CARGO_CFG_TARGET_ARCH").expect("cargo sets it");
    if machine != "x86_64" {
        fail(&format!(
            "`tools/staticlib` compiles for x86-64, not for {machine}"
        ));
    }
    println!(
        "cargo:rerun-if-changed={}",
        root.join("crates.txt").display()
    );
    // Not the crates' whole folders: what a proof leaves in them is no source.
    let crates = root.join("crates");
    let there = fs::read_dir(&crates)
        .unwrap_or_else(|error| fail(&format!("{}: {error}", crates.display())));
    for name in there.flatten() {
        for part in ["src", "specs", "proofs"] {
            let sources = name.path().join(part);
            if sources.is_dir() {
                println!("cargo:rerun-if-changed={}", sources.display());
            }
        }
    }
    match Command::new(root.join("tools/staticlib")).output() {
        Err(error) => fail(&format!("tools/staticlib: {error}")),
        Ok(run) if !run.status.success() => fail(&format!(
            "tools/staticlib: {}\n{}{}",
            run.status,
            String::from_utf8_lossy(&run.stdout),
            String::from_utf8_lossy(&run.stderr)
        )),
        Ok(_) => root.join("target/staticlib"),
    }
}

fn fail(why: &str) -> ! {
    eprintln!(
        "{why}\nA libcapi.a that is there already is linked from the folder that {FOLDER} names."
    );
    exit(1)
}
