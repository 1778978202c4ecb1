//! Finds the exports that `rt lib` writes, and the C forms that `bench/run` compiles, from the root of the repository.
use std::path::Path;

fn main() {
    let here = std::env::var("CARGO_MANIFEST_DIR").expect("cargo names this folder");
    let top = Path::new(&here).join("..");
    let (exports, forms) = (top.join("crates/exports/out"), top.join("target/bench/forms"));
    for folder in [&exports, &forms] {
        println!("cargo:rustc-link-search=native={}", folder.display());
    }
    for library in [
        exports.join("libexports.a"),
        forms.join("libforms_gcc.a"),
        forms.join("libforms_clang.a"),
    ] {
        println!("cargo:rerun-if-changed={}", library.display());
    }
    println!("cargo:rustc-check-cfg=cfg(with_clang)");
    if forms.join("libforms_clang.a").exists() {
        println!("cargo:rustc-cfg=with_clang");
    }
}
