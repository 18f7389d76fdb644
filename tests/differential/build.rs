//! Compiles and links the C layers over the proved library, pci_bios.c, pci_driver.c and
//! pci_cookie.c of host/, or of the folder that HOST_DIR names.

use std::env;
use std::path::{Path, PathBuf};
use std::process::Command;

const SOURCES: [&str; 3] = ["pci_bios", "pci_driver", "pci_cookie"];
const FLAGS: [&str; 6] = ["-std=c99", "-O2", "-Wall", "-Wextra", "-Wpedantic", "-Werror"];

fn main() {
    let crate_dir = env::var("CARGO_MANIFEST_DIR").expect("cargo names the crate's folder");
    let out = PathBuf::from(env::var("OUT_DIR").expect("cargo names the output's folder"));
    let standard = Path::new(&crate_dir).join("../../host");
    let host = env::var("HOST_DIR").map_or(standard, PathBuf::from);
    let mut objects = Vec::new();
    for source in SOURCES {
        let object = out.join(source).with_extension("o");
        let source = host.join(source).with_extension("c");
        run(Command::new("cc").args(FLAGS).arg("-c").arg(source).arg("-o").arg(&object));
        objects.push(object);
    }
    let library = out.join("libpci_host.a");
    // An archive that is there keeps its other members.
    let _ = std::fs::remove_file(&library);
    run(Command::new("ar").arg("crs").arg(&library).args(objects));
    println!("cargo::rerun-if-env-changed=HOST_DIR");
    println!("cargo::rerun-if-changed={}", host.display());
    println!("cargo::rustc-link-search=native={}", out.display());
    println!("cargo::rustc-link-lib=static=pci_host");
}

fn run(command: &mut Command) {
    let status = command.status().unwrap_or_else(|fault| panic!("{command:?}: {fault}"));
    assert!(status.success(), "{command:?}: {status}");
}
