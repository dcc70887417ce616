//! Links the archives `libdoor.a` and `librolldoor.a`, and for the feature `bench` `libbench.a`.
//! SPLICER_LIB names their folder. Without it they are those of the release that this crate stands
//! in, `../lib`; in the repository, which has none, `../target/staticlib` (`sh tools/archives.sh`),
//! or for another processor than x86-64 `../target/native`, where `tools/beside.sh` has them compiled.

use std::path::{Path, PathBuf};

fn main() {
    println!("cargo:rerun-if-env-changed=SPLICER_LIB");
    println!("cargo:rerun-if-env-changed=DOCS_RS");
    // the documentation by itself links nothing
    if std::env::var_os("DOCS_RS").is_some() {
        return;
    }
    let folder = match std::env::var_os("SPLICER_LIB") {
        Some(folder) => PathBuf::from(folder),
        None => own_folder(),
    };
    println!("cargo:rustc-link-search=native={}", folder.display());
    link(&folder, "door");
    link(&folder, "rolldoor");
    if std::env::var_os("CARGO_FEATURE_BENCH").is_some() {
        link(&folder, "bench");
    }
}

fn own_folder() -> PathBuf {
    let above = Path::new(env!("CARGO_MANIFEST_DIR")).join("..");
    if above.join("MANIFEST").is_file() {
        above.join("lib")
    } else if is_x86() {
        above.join("target/staticlib")
    } else {
        above.join("target/native")
    }
}

fn is_x86() -> bool {
    std::env::var("CARGO_CFG_TARGET_ARCH").as_deref() == Ok("x86_64")
}

fn link(folder: &Path, name: &str) {
    let archive = folder.join(format!("lib{name}.a"));
    if !archive.is_file() {
        let by = if is_x86() {
            "sh tools/archives.sh"
        } else {
            "sh tools/archive-for.sh TARGET OUT.a"
        };
        panic!(
            "{} is missing: SPLICER_LIB names another folder, in the repository {by} {name} makes it",
            archive.display()
        );
    }
    println!("cargo:rerun-if-changed={}", archive.display());
    println!("cargo:rustc-link-lib=static={name}");
}
