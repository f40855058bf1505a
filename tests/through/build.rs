//! Links the static library that `tests/library` writes.
fn main() {
    let root = std::env::var("CARGO_MANIFEST_DIR").unwrap();
    println!("cargo:rustc-link-search=native={root}/../../target/staticlib");
    println!("cargo:rustc-link-lib=static=ffi");
    println!("cargo:rerun-if-changed=../../target/staticlib/libffi.a");
}
