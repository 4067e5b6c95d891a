//! Links the proved library that `tools/library.sh` writes.

use std::path::Path;

fn main() {
    let root = Path::new(env!("CARGO_MANIFEST_DIR")).parent().expect("the package stands in the repository");
    let folder = root.join("target/staticlib");
    let archive = folder.join("libjudge.a");
    if !archive.exists() {
        println!("cargo:warning=target/staticlib/libjudge.a is missing: run tools/library.sh");
    }
    println!("cargo:rustc-link-search=native={}", folder.display());
    println!("cargo:rustc-link-lib=static=judge");
    println!("cargo:rerun-if-changed={}", archive.display());
}
