//! Links libruhvasto.a from the folder named by RUHVASTO_LIB_DIR.

use std::env;
use std::path::{Path, PathBuf};

fn main() {
    let manifest = env::var("CARGO_MANIFEST_DIR").expect("set by cargo");
    let folder = env::var_os("RUHVASTO_LIB_DIR").map_or_else(
        || Path::new(&manifest).join("../../target/staticlib"),
        PathBuf::from,
    );
    println!("cargo:rerun-if-env-changed=RUHVASTO_LIB_DIR");
    println!(
        "cargo:rerun-if-changed={}",
        folder.join("libruhvasto.a").display()
    );
    println!("cargo:rustc-link-search=native={}", folder.display());
    println!("cargo:rustc-link-lib=static=ruhvasto");
}
