//! Links the archive that tools/archive writes.

fn main() {
    let root = std::env::var("CARGO_MANIFEST_DIR").expect("cargo sets it");
    println!("cargo:rustc-link-search=native={root}/../../target/staticlib");
    println!("cargo:rustc-link-lib=static=offer");
    println!("cargo:rerun-if-changed=../../target/staticlib/liboffer.a");
}
