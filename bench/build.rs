// Links the proved library that `rt lib` writes in crates/shagorent, where the feature `library` asks for it and no stand-in replaces it.

use std::env;
use std::path::Path;

fn wanted(feature: &str) -> bool {
    env::var_os(format!("CARGO_FEATURE_{feature}")).is_some()
}

fn main() {
    println!("cargo:rerun-if-changed=build.rs");
    if !wanted("LIBRARY") || wanted("STANDIN") {
        return;
    }
    let here = env::var("CARGO_MANIFEST_DIR").expect("cargo names the folder");
    let folder = Path::new(&here).join("../crates/shagorent/out");
    println!("cargo:rerun-if-changed={}", folder.join("libshagorent.a").display());
    println!("cargo:rustc-link-search=native={}", folder.display());
    println!("cargo:rustc-link-lib=static=shagorent");
}
