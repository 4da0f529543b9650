// Links the archive that `tests/archive target/staticlib` writes (x86-64); MERGECHECK_LIB names another folder that holds libchecker.a.
use std::path::PathBuf;

fn main() {
    let here = PathBuf::from(std::env::var("CARGO_MANIFEST_DIR").unwrap());
    let folder = match std::env::var("MERGECHECK_LIB") {
        Ok(folder) => PathBuf::from(folder),
        Err(_) => here.join("../../target/staticlib"),
    };
    println!("cargo:rerun-if-env-changed=MERGECHECK_LIB");
    println!("cargo:rerun-if-changed={}", folder.join("libchecker.a").display());
    println!("cargo:rustc-link-search=native={}", folder.display());
    println!("cargo:rustc-link-lib=static=checker");
}
