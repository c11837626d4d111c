//! Links the proved library, which `rt lib` builds in crates/exports.

use std::path::Path;

fn main() {
    let root = Path::new(env!("CARGO_MANIFEST_DIR")).join("../../crates/exports/out");
    println!("cargo:rustc-link-search=native={}", root.display());
    println!("cargo:rustc-link-lib=static=exports");
    println!(
        "cargo:rerun-if-changed={}",
        root.join("libexports.a").display()
    );
}
