// Links the archive that `tools/staticlib.sh` writes: in the folder that TARBUCKET_LIB names, or else in target/staticlib of the repository.
fn main() {
    let here = std::env::var("CARGO_MANIFEST_DIR").unwrap();
    let dir = std::env::var("TARBUCKET_LIB").unwrap_or(format!("{here}/../../target/staticlib"));
    println!("cargo:rustc-link-search=native={dir}");
    println!("cargo:rustc-link-lib=static=ffi");
    println!("cargo:rerun-if-changed={dir}/libffi.a");
    println!("cargo:rerun-if-env-changed=TARBUCKET_LIB");
}
