//! Tells the linker where the library is: where `tools/staticlib.sh` puts it, or in $STATICLIB.

fn main() {
    let root = std::env::var("CARGO_MANIFEST_DIR").expect("cargo sets it");
    let folder = std::env::var("STATICLIB").unwrap_or(format!("{root}/../target/staticlib"));
    println!("cargo:rustc-link-search=native={folder}");
    println!("cargo:rerun-if-changed={folder}/libffi.a");
    println!("cargo:rerun-if-env-changed=STATICLIB");
}
