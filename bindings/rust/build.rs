//! Tells the linker where `libdelugash.a` is: in the folder that DELUGASH_LIB_DIR names, or where `tests/library` writes it.

use std::env;
use std::path::PathBuf;

fn main() {
    let folder = match env::var_os("DELUGASH_LIB_DIR") {
        Some(folder) => PathBuf::from(folder),
        None => PathBuf::from(env!("CARGO_MANIFEST_DIR")).join("../../target/staticlib"),
    };
    let library = folder.join("libdelugash.a");
    if !library.exists() {
        println!(
            "cargo:warning=no libdelugash.a in {}: run `tests/library`, or set DELUGASH_LIB_DIR",
            folder.display()
        );
    }
    println!("cargo:rerun-if-env-changed=DELUGASH_LIB_DIR");
    println!("cargo:rerun-if-changed={}", library.display());
    println!("cargo:rustc-link-search=native={}", folder.display());
    println!("cargo:rustc-link-lib=static=delugash");
}
