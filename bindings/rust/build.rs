//! Links the static library that `rt lib` writes in crates/szk. SZK_LIBRARY_FOLDER names another folder to find it in.

use std::env;
use std::path::PathBuf;

fn main() {
    let here = PathBuf::from(env::var_os("CARGO_MANIFEST_DIR").expect("cargo names the package's folder"));
    let folder = match env::var_os("SZK_LIBRARY_FOLDER") {
        Some(folder) => PathBuf::from(folder),
        None => here.join("../../crates/szk/out"),
    };
    println!("cargo:rerun-if-env-changed=SZK_LIBRARY_FOLDER");
    println!("cargo:rerun-if-changed={}", folder.join("libszk.a").display());
    println!("cargo:rustc-link-search=native={}", folder.display());
    println!("cargo:rustc-link-lib=static=szk");
}
