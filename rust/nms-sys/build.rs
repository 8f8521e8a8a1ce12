//! Finds the library: in the folder that NMS_LIB_DIR names, or else by the command pkg-config. It needs no other crate.

use std::env;
use std::process::{exit, Command};

/// What pkg-config answers of the library.
fn pkg_config(word: &str) -> Option<String> {
    let program = env::var("PKG_CONFIG").unwrap_or_else(|_| "pkg-config".into());
    let out = Command::new(program).args([word, "nms"]).output().ok()?;
    out.status.success().then(|| String::from_utf8_lossy(&out.stdout).trim().to_string())
}

fn main() {
    for name in ["NMS_LIB_DIR", "PKG_CONFIG", "PKG_CONFIG_PATH", "DOCS_RS"] {
        println!("cargo:rerun-if-env-changed={name}");
    }
    // Pages of documentation need no library.
    if env::var_os("DOCS_RS").is_some() {
        return;
    }
    let Some(folder) = env::var("NMS_LIB_DIR").ok().or_else(|| pkg_config("--variable=libdir")) else {
        eprintln!("nms-sys: the library nms was not found: install it and set PKG_CONFIG_PATH, or set NMS_LIB_DIR to its folder");
        exit(1);
    };
    let (kind, file) = if env::var_os("CARGO_FEATURE_STATIC").is_some() { ("static", "libnms.a") } else { ("dylib", "libnms.so") };
    println!("cargo:rerun-if-changed={folder}/{file}");
    println!("cargo:rustc-link-search=native={folder}");
    println!("cargo:rustc-link-lib={kind}=nms");
}
