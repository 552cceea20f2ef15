//! Links the proved functions, which `rt lib` in crates/speed has to make first.

use std::path::Path;

fn main() {
    let root = Path::new(env!("CARGO_MANIFEST_DIR")).parent().expect("bench/ stands in the repository");
    let folder = root.join("crates").join("speed").join("out");
    let archive = folder.join("libspeed.a");
    if !archive.exists() {
        panic!("{} is missing: run `rt lib` in crates/speed first", archive.display());
    }
    println!("cargo:rerun-if-changed={}", archive.display());
    println!("cargo:rustc-link-search=native={}", folder.display());
    println!("cargo:rustc-link-lib=static=speed");
}
