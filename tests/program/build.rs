//! Builds the library that makes a program's reads and writes fail, which is loaded before the C library.

use std::env;
use std::path::Path;
use std::process::Command;

fn main() {
    let library = Path::new(&env::var("OUT_DIR").unwrap()).join("libfaults.so");
    let built = Command::new(env::var("RUSTC").unwrap())
        .args([
            "--edition=2021",
            "--crate-type=cdylib",
            "-Cpanic=abort",
            "-O",
            "faults.rs",
            "-o",
        ])
        .arg(&library)
        .status();
    assert!(built.unwrap().success());
    println!("cargo:rustc-env=FAULTS={}", library.display());
    println!("cargo:rerun-if-changed=faults.rs");
}
