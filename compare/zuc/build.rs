//! Lays out the supplied files under their real paths, byte for byte, and
//! beside them the two modules that were not supplied.

use std::path::{Path, PathBuf};
use std::{env, fs};

/// Where the supplied files are unless ZUC_SRC says otherwise. Either name,
/// if relative, counts from the repository's root.
const DEFAULT_SOURCE: &str = "../shared/docs/src";

/// The modules that lib.rs names and that were not supplied.
const STAND_INS: [&str; 2] = ["internal/keystream.rs", "zuc256/stream_cipher.rs"];

fn main() {
    let package = PathBuf::from(env::var_os("CARGO_MANIFEST_DIR").expect("cargo sets it"));
    let compare = package.parent().expect("this package stands in compare/");
    let root = compare.parent().expect("compare/ stands in the repository");
    let source = root.join(env::var("ZUC_SRC").unwrap_or_else(|_| DEFAULT_SOURCE.into()));
    let out = compare.join("target/zuc-0.4.1/src");
    println!("cargo:rerun-if-env-changed=ZUC_SRC");

    let supplied = supplied_modules(&source);
    for (module, file) in &supplied {
        copy(file, &out.join(module));
    }
    for module in STAND_INS {
        assert!(
            supplied.iter().all(|(name, _)| name != module),
            "{module} is supplied: its stand-in must go"
        );
        copy(&compare.join("stand-ins/zuc").join(module), &out.join(module));
    }
}

/// The supplied modules: path in the crate's src/, and file. A file named
/// `src--src--internal--zuc.rs.txt` is the module `internal/zuc.rs`.
fn supplied_modules(source: &Path) -> Vec<(String, PathBuf)> {
    let listing = fs::read_dir(source).unwrap_or_else(|error| {
        panic!("{}: {error}; ZUC_SRC names the folder of the supplied files", source.display())
    });
    listing
        .map(|entry| entry.expect("a readable folder").path())
        .filter_map(|file| {
            let name = file.file_name()?.to_str()?;
            let module = name.strip_prefix("src--src--")?.strip_suffix(".txt")?;
            Some((module.replace("--", "/"), file.clone()))
        })
        .collect()
}

/// Writes only what has changed: cargo compiles anew by the time of writing.
/// A copy that something else altered (a formatter, say) is made again.
fn copy(from: &Path, to: &Path) {
    println!("cargo:rerun-if-changed={}", from.display());
    println!("cargo:rerun-if-changed={}", to.display());
    let text = fs::read(from).unwrap_or_else(|error| panic!("{}: {error}", from.display()));
    if fs::read(to).is_ok_and(|old| old == text) {
        return;
    }
    fs::create_dir_all(to.parent().expect("a file in a folder")).expect("a folder to write to");
    fs::write(to, text).expect("a file to write");
}
