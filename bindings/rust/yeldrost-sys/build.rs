//! Finds the library: in the folder that YELDROST_LIB_DIR names, else where pkg-config says that it is installed.
use std::{env, process::Command};

fn folder() -> String {
    if let Ok(folder) = env::var("YELDROST_LIB_DIR") {
        return folder;
    }
    let asked = Command::new("pkg-config")
        .args(["--variable=libdir", "yeldrost"])
        .output();
    match asked {
        Ok(told) if told.status.success() => String::from_utf8_lossy(&told.stdout).trim().to_owned(),
        _ => panic!("pkg-config finds no yeldrost: install it (tools/build/install PREFIX), and set PKG_CONFIG_PATH=PREFIX/lib/pkgconfig or YELDROST_LIB_DIR=PREFIX/lib"),
    }
}

fn main() {
    let folder = folder();
    let is_shared = env::var_os("CARGO_FEATURE_SHARED").is_some();
    println!("cargo:rustc-link-search=native={folder}");
    println!(
        "cargo:rustc-link-lib={}=yeldrost",
        if is_shared { "dylib" } else { "static" }
    );
    println!("cargo:libdir={folder}");
    for name in ["YELDROST_LIB_DIR", "PKG_CONFIG_PATH"] {
        println!("cargo:rerun-if-env-changed={name}");
    }
    println!("cargo:rerun-if-changed={folder}/libyeldrost.a");
}
