//! Links the proved static libraries of the repository.

use std::path::PathBuf;

fn main() {
    let package = std::env::var_os("CARGO_MANIFEST_DIR").expect("cargo gives the package's folder");
    let folder = PathBuf::from(package).join("../target/staticlib");
    println!("cargo:rustc-link-search=native={}", folder.display());
    for name in ["firmware", "replay", "trial"] {
        let library = folder.join(format!("lib{name}.a"));
        println!("cargo:rerun-if-changed={}", library.display());
        if !library.is_file() {
            eprintln!("target/staticlib/lib{name}.a is absent: run `bash ci/build.sh {name}` first");
            std::process::exit(1);
        }
        println!("cargo:rustc-link-lib=static={name}");
    }
}
