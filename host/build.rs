//! Links the proved library, which `host/build` writes to target/staticlib/ at the repository's root.

use std::path::Path;

fn main() {
    let folder = Path::new(env!("CARGO_MANIFEST_DIR")).join("../target/staticlib");
    let library = folder.join("libgate.a");
    println!("cargo:rerun-if-changed={}", library.display());
    if !library.exists() {
        panic!("{} is missing: run `host/build`", library.display());
    }
    println!("cargo:rustc-link-search=native={}", folder.display());
    println!("cargo:rustc-link-lib=static=gate");
}
