//! Links the libraries of `host` and `probe` that bench/native made.

use std::path::Path;

fn main() {
    let root = Path::new(env!("CARGO_MANIFEST_DIR")).join("../target/native");
    for name in ["host", "probe"] {
        let library = root.join(format!("lib{name}.a"));
        println!("cargo:rustc-link-arg={}", library.display());
        println!("cargo:rerun-if-changed={}", library.display());
    }
}
