//! Links the static library that `tools/library` builds. CLATTERTHAW_LIB names another folder that holds it.
use std::env;
use std::path::PathBuf;

fn main() {
    let built = PathBuf::from(env::var("CARGO_MANIFEST_DIR").unwrap()).join("../../target/staticlib");
    let folder = env::var("CLATTERTHAW_LIB").map(PathBuf::from).unwrap_or(built);
    println!("cargo:rerun-if-env-changed=CLATTERTHAW_LIB");
    println!("cargo:rerun-if-changed={}", folder.join("libclatterthaw_host.a").display());
    println!("cargo:rustc-link-search=native={}", folder.display());
    println!("cargo:rustc-link-lib=static=clatterthaw_host");
}
