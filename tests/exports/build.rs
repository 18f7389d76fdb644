//! Links the proved static library: libbios.a in PROVED_LIB_DIR, else in crates/bios/out.

use std::env;
use std::path::Path;

fn main() {
    let crate_dir = env::var("CARGO_MANIFEST_DIR").expect("cargo names the crate's folder");
    let standard = Path::new(&crate_dir).join("../../crates/bios/out");
    let dir = env::var("PROVED_LIB_DIR").map_or(standard, Into::into);
    println!("cargo::rerun-if-env-changed=PROVED_LIB_DIR");
    println!("cargo::rerun-if-changed={}", dir.join("libbios.a").display());
    println!("cargo::rustc-link-search=native={}", dir.display());
    println!("cargo::rustc-link-lib=static=bios");
}
