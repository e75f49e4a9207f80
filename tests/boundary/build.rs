//! Links the two libraries below target/staticlib/, which `tools/build NAME_c` writes.

use std::path::Path;

fn main() {
    let here = std::env::var("CARGO_MANIFEST_DIR").expect("cargo names the folder");
    let folder = Path::new(&here).join("../../target/staticlib");
    println!("cargo:rustc-link-search=native={}", folder.display());
    for name in ["probe", "placement"] {
        let library = folder.join(format!("lib{name}.a"));
        println!("cargo:rerun-if-changed={}", library.display());
        assert!(library.is_file(), "{} is missing: run 'tools/build {name}_c'", library.display());
        println!("cargo:rustc-link-lib=static={name}");
    }
}
