//! Points at the original sources, and at the library when the feature
//! `offer` is on.

use std::env;
use std::fs;
use std::path::PathBuf;

/// Module name and file name of each original.
const ORIGINALS: [(&str, &str); 2] = [
    ("ir", "src--src--lang--ir.rs.txt"),
    ("validator", "src--src--lang--validator.rs.txt"),
];

fn main() {
    originals();
    if env::var_os("CARGO_FEATURE_OFFER").is_some() {
        library();
    }
}

/// The folder an environment variable names, or else one beside the manifest.
fn folder(variable: &str, beside: &str) -> PathBuf {
    println!("cargo:rerun-if-env-changed={variable}");
    match env::var_os(variable) {
        Some(given) => PathBuf::from(given),
        None => PathBuf::from(env::var_os("CARGO_MANIFEST_DIR").unwrap()).join(beside),
    }
}

/// Writes OUT_DIR/lang.rs, whose modules are the original files where they
/// stand: they are compiled as they are.
fn originals() {
    let sources = folder("OFFER_SOURCES", "../../../shared/docs/src");
    let mut lang = String::new();
    for (module, file) in ORIGINALS {
        let path = sources.join(file);
        let path = path.canonicalize().unwrap_or_else(|e| {
            panic!(
                "original source {}: {e} (OFFER_SOURCES names its folder)",
                path.display()
            )
        });
        println!("cargo:rerun-if-changed={}", path.display());
        lang += &format!("#[path = {path:?}]\npub mod {module};\n");
    }
    let out = PathBuf::from(env::var_os("OUT_DIR").unwrap());
    fs::write(out.join("lang.rs"), lang).expect("OUT_DIR can be written");
}

/// Links liboffer.a.
fn library() {
    let lib = folder("OFFER_LIB", "../../target/staticlib");
    println!("cargo:rustc-link-search=native={}", lib.display());
    println!("cargo:rustc-link-lib=static=offer");
    println!(
        "cargo:rerun-if-changed={}",
        lib.join("liboffer.a").display()
    );
}
