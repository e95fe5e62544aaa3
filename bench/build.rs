//! Notes the compiler's version.

use std::env;
use std::process::Command;

fn main() {
    println!("cargo:rerun-if-changed=build.rs");
    println!("cargo:rustc-env=RUSTC_VERSION={}", compiler_version());
}

fn compiler_version() -> String {
    let compiler = env::var_os("RUSTC").expect("set by cargo");
    let output = Command::new(compiler).arg("--version").output();
    let words = String::from_utf8(output.expect("rustc runs").stdout).expect("text");
    words.trim().to_owned()
}
