//! Links the archive of the proved library: `CAPI_LIB`, or the one that the repository builds.

#![deny(warnings)]

use std::env;
use std::path::{Path, PathBuf};

fn main() {
    println!("cargo:rerun-if-env-changed=CAPI_LIB");
    let built = || Path::new(env!("CARGO_MANIFEST_DIR")).join("../../target/staticlib/libcapi.a");
    let archive = env::var_os("CAPI_LIB").map_or_else(built, PathBuf::from);
    println!("cargo:rerun-if-changed={}", archive.display());
    match (archive.parent(), archive.file_name()) {
        (Some(folder), Some(name)) if archive.is_file() => {
            println!("cargo:rustc-link-search=native={}", folder.display());
            println!("cargo:rustc-link-lib=static:+verbatim={}", name.display());
        }
        _ => panic!("no proved library at {}", archive.display()),
    }
}
