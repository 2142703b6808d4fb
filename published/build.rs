//! Names the published source files as modules of this crate, in the folder PUBLISHED (else ../../shared/docs/src, beside the repository). A file that ends in
//! a bare attribute, where its tests were cut off, is taken with an empty module after its last line; nothing else is added or changed.
use std::env;
use std::fs;
use std::path::PathBuf;

const MODULES: [&str; 9] = [
    "arraymap",
    "gf2",
    "iterators",
    "matrix",
    "octet",
    "octets",
    "sparse_matrix",
    "sparse_vec",
    "util",
];

fn main() {
    let beside =
        PathBuf::from(env::var("CARGO_MANIFEST_DIR").unwrap()).join("../../shared/docs/src");
    let folder = env::var("PUBLISHED").map(PathBuf::from).unwrap_or(beside);
    let folder = fs::canonicalize(&folder).unwrap_or_else(|e| panic!("{}: {e}", folder.display()));
    println!("cargo:rerun-if-env-changed=PUBLISHED");
    let out = PathBuf::from(env::var("OUT_DIR").unwrap());
    let mut text = String::new();
    for module in MODULES {
        let file = folder.join(format!("{module}.rs"));
        println!("cargo:rerun-if-changed={}", file.display());
        let source = fs::read_to_string(&file).unwrap();
        let last = source.trim_end().lines().last().unwrap_or("");
        let taken = if last.starts_with("#[") && last.ends_with(']') {
            let ended = out.join(format!("{module}.rs"));
            fs::write(&ended, source + "\nmod cut_off {}\n").unwrap();
            ended
        } else {
            file
        };
        text.push_str(&format!("#[path = {taken:?}]\npub mod {module};\n"));
    }
    fs::write(out.join("modules.rs"), text).unwrap();
}
