//! Finds the static libraries that `rt lib` writes, from the root of the repository.
use std::path::Path;

fn main() {
    let here = std::env::var("CARGO_MANIFEST_DIR").expect("cargo names this folder");
    let crates = Path::new(&here).join("../../crates");
    for name in ["exports", "host"] {
        let built = crates.join(name).join("out");
        println!("cargo:rustc-link-search=native={}", built.display());
        let library = built.join(format!("lib{name}.a"));
        println!("cargo:rerun-if-changed={}", library.display());
    }
}
