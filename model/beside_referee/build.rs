//! Links `libbench.a` of SPLICER_LIB and the header's functions of SPLICER_INCLUDE, compiled by `cc` (CC names another).

use std::path::Path;
use std::process::Command;

fn main() {
    let of = |name: &str, usual: &str| std::env::var(name).unwrap_or(format!("{}/../../{usual}", env!("CARGO_MANIFEST_DIR")));
    let (library, include) = (of("SPLICER_LIB", "target/staticlib"), of("SPLICER_INCLUDE", "include"));
    let (compiler, out) = (std::env::var("CC").unwrap_or("cc".to_string()), std::env::var("OUT_DIR").expect("cargo sets it"));
    let object = format!("{out}/header.o");
    run(Command::new(compiler).args(["-c", "-O2", "-Wall", "-Werror", "-I", &include, "header.c", "-o", &object]));
    run(Command::new("ar").args(["crs", &format!("{out}/libheader.a"), &object]));
    for name in ["SPLICER_LIB", "SPLICER_INCLUDE", "CC"] {
        println!("cargo:rerun-if-env-changed={name}");
    }
    println!("cargo:rerun-if-changed=header.c");
    println!("cargo:rerun-if-changed={include}/splicer_bench.h");
    println!("cargo:rerun-if-changed={}", Path::new(&library).join("libbench.a").display());
    println!("cargo:rustc-link-search=native={out}");
    println!("cargo:rustc-link-search=native={library}");
    println!("cargo:rustc-link-lib=static=header");
    println!("cargo:rustc-link-lib=static=bench");
}

fn run(command: &mut Command) {
    let status = command.status().unwrap_or_else(|e| panic!("{command:?}: {e}"));
    assert!(status.success(), "{command:?} failed");
}
