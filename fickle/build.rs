//! Links the static library that `tools/build.sh` makes, target/staticlib/libservices.a.

use std::path::Path;

fn main() {
    let root = Path::new(env!("CARGO_MANIFEST_DIR")).join("../target/staticlib");
    println!("cargo:rustc-link-search=native={}", root.display());
    println!("cargo:rustc-link-lib=static=services");
    println!("cargo:rerun-if-changed={}", root.join("libservices.a").display());
}
