//! Finds the library for C: where TIUVROKK_LIB_DIR says, or where pkg-config does. It is linked statically, unless
//! TIUVROKK_DYNAMIC is set.

use std::env;
use std::process::{exit, Command};

fn main() {
    println!("cargo:rerun-if-env-changed=TIUVROKK_LIB_DIR");
    println!("cargo:rerun-if-env-changed=TIUVROKK_DYNAMIC");
    println!("cargo:rerun-if-env-changed=PKG_CONFIG_PATH");
    let Some(folder) = env::var("TIUVROKK_LIB_DIR").ok().or_else(told_by_pkg_config) else {
        eprintln!(
            "the library of tiuvrokk isn't found: ./install-library PREFIX installs it from the sources, and \
             PKG_CONFIG_PATH=PREFIX/lib/pkgconfig or TIUVROKK_LIB_DIR=PREFIX/lib names it"
        );
        exit(1);
    };
    let kind = if env::var_os("TIUVROKK_DYNAMIC").is_some() { "dylib" } else { "static" };
    println!("cargo:rustc-link-search=native={folder}");
    println!("cargo:rustc-link-lib={kind}=tiuvrokk");
}

/// The folder of the library, by pkg-config.
fn told_by_pkg_config() -> Option<String> {
    let told = Command::new("pkg-config").args(["--variable=libdir", "tiuvrokk"]).output().ok()?;
    let folder = String::from_utf8(told.stdout).ok()?.trim().to_owned();
    (told.status.success() && !folder.is_empty()).then_some(folder)
}
