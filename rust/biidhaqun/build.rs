//! Links the static library: `libbiidhaqun.a` in the folder that BIIDHAQUN_LIB names by its full path, or else in the
//! repository's target/staticlib.

use std::env;
use std::path::PathBuf;
use std::process::exit;

fn main() {
    println!("cargo:rerun-if-env-changed=BIIDHAQUN_LIB");
    if env::var_os("CARGO_FEATURE_LINKED").is_none() {
        return;
    }
    let repository = || PathBuf::from(env!("CARGO_MANIFEST_DIR")).join("../../target/staticlib");
    let named = env::var_os("BIIDHAQUN_LIB").filter(|folder| !folder.is_empty());
    let folder = named.map_or_else(repository, PathBuf::from);
    let archive = folder.join("libbiidhaqun.a");
    println!("cargo:rerun-if-changed={}", archive.display());
    if !archive.exists() {
        eprintln!("there is no {}", archive.display());
        eprintln!(
            "scripts/archive, in the repository's folder, proves and builds it; BIIDHAQUN_LIB names another folder by its full path"
        );
        exit(1);
    }
    println!("cargo:rustc-link-search=native={}", folder.display());
    println!("cargo:rustc-link-lib=static=biidhaqun");
}
