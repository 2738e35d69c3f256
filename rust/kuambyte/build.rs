//! Finds libkuambyte.a: in the folder that KUAMBYTE_LIB_DIR names, where the repository builds it, beside an installed copy of
//! this crate, or where pkg-config says.

use std::env;
use std::path::{Path, PathBuf};
use std::process::Command;

const MISSING: &str = "libkuambyte.a was not found. Build it with `make library` in Kuambyte's repository, install it with \
                       `make install`, or name its folder in KUAMBYTE_LIB_DIR.";

fn main() {
    println!("cargo:rerun-if-changed=build.rs");
    println!("cargo:rerun-if-env-changed=KUAMBYTE_LIB_DIR");
    println!("cargo:rerun-if-env-changed=PKG_CONFIG_PATH");
    // On any other target src/lib.rs says what is wrong, which the compiler shows better than a failed build script.
    if !is_x86_64_linux() {
        return;
    }
    let folder = folder().unwrap_or_else(|| {
        eprintln!("error: {MISSING}");
        std::process::exit(1)
    });
    println!(
        "cargo:rerun-if-changed={}",
        folder.join("libkuambyte.a").display()
    );
    println!("cargo:rustc-link-search=native={}", folder.display());
    println!("cargo:rustc-link-lib=static=kuambyte");
}

fn is_x86_64_linux() -> bool {
    let is = |name: &str, value: &str| env::var(name).is_ok_and(|found| found == value);
    is("CARGO_CFG_TARGET_ARCH", "x86_64") && is("CARGO_CFG_TARGET_OS", "linux")
}

/// A folder that was named is the only one that is looked into, so that a slip in its name is noticed.
fn folder() -> Option<PathBuf> {
    if let Some(named) = env::var_os("KUAMBYTE_LIB_DIR") {
        return with_library(PathBuf::from(named));
    }
    let here = PathBuf::from(env::var_os("CARGO_MANIFEST_DIR")?);
    // An installed copy stands in PREFIX/share/cargo/registry/kuambyte-VERSION.
    with_library(here.join("../../target/library"))
        .or_else(|| with_library(here.join("../../../../lib")))
        .or_else(|| with_library(told_by_pkg_config()?))
}

fn with_library(folder: PathBuf) -> Option<PathBuf> {
    let has = |folder: &Path| folder.join("libkuambyte.a").is_file();
    has(&folder).then_some(folder)
}

fn told_by_pkg_config() -> Option<PathBuf> {
    let words = ["--variable=libdir", "kuambyte"];
    let told = Command::new("pkg-config").args(words).output().ok()?;
    let folder = String::from_utf8(told.stdout).ok()?;
    Some(PathBuf::from(folder.trim_end()))
}
