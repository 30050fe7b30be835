//! Tells the linker where the library is, where `tools/staticlib.sh` puts it or in $STATICLIB, and compiles the bounds.

use std::process::Command;

fn main() {
    let root = std::env::var("CARGO_MANIFEST_DIR").expect("cargo sets it");
    let folder = std::env::var("STATICLIB").unwrap_or(format!("{root}/../target/staticlib"));
    println!("cargo:rustc-link-search=native={folder}");
    println!("cargo:rerun-if-changed={folder}/libffi.a");
    println!("cargo:rerun-if-env-changed=STATICLIB");
    bounds(&root);
}

/// Makes libbounds.a of bounds.c.
fn bounds(root: &str) {
    let out = std::env::var("OUT_DIR").expect("cargo sets it");
    let compiler = std::env::var("CC").unwrap_or("cc".to_string());
    let (source, object, archive) = (format!("{root}/bounds.c"), format!("{out}/bounds.o"), format!("{out}/libbounds.a"));
    run(Command::new(compiler).args(["-O3", "-Wall", "-Wextra", "-c", &source, "-o", &object]));
    run(Command::new("ar").args(["rcs", &archive, &object]));
    println!("cargo:rustc-link-search=native={out}");
    println!("cargo:rerun-if-changed={source}");
    println!("cargo:rerun-if-changed={root}/../include/tarbucket.h");
    println!("cargo:rerun-if-env-changed=CC");
}

fn run(command: &mut Command) {
    let status = command.status().unwrap_or_else(|error| panic!("{command:?}: {error}"));
    assert!(status.success(), "{command:?}: {status}");
}
