//! Finds libbt.a: in the folder BT_LIB_DIR, or else in dist/ of the repository, which cargo has both by path and by git.
use std::env;
use std::path::{Path, PathBuf};
use std::process;

fn main() {
    println!("cargo:rerun-if-env-changed=BT_LIB_DIR");
    println!("cargo:rerun-if-env-changed=DOCS_RS");
    // (docs.rs documents the crate alone, and links nothing)
    if env::var_os("DOCS_RS").is_some() {
        return;
    }
    let folder = folder().unwrap_or_else(|why| {
        eprintln!("bt: {why}");
        process::exit(1)
    });
    println!("cargo:rerun-if-changed={}", folder.join("libbt.a").display());
    println!("cargo:rustc-link-search=native={}", folder.display());
    println!("cargo:rustc-link-lib=static=bt");
}

/// The folder of libbt.a, or why there is none. A relative BT_LIB_DIR begins at this crate.
fn folder() -> Result<PathBuf, String> {
    if let Some(given) = env::var_os("BT_LIB_DIR") {
        return with_library(given.as_ref()).ok_or_else(|| format!("BT_LIB_DIR is {given:?}, where no libbt.a is"));
    }
    let variable = |name| env::var(name).unwrap_or_default();
    if variable("CARGO_CFG_TARGET_OS") != "linux" || variable("CARGO_CFG_TARGET_ARCH") != "x86_64" {
        let target = variable("TARGET");
        return Err(format!("dist/ has libbt.a for Linux on x86-64, not for {target}; BT_LIB_DIR may name a folder with one"));
    }
    let folder = PathBuf::from(variable("CARGO_MANIFEST_DIR")).join("../../dist/x86_64-linux");
    with_library(&folder).ok_or_else(|| {
        let clone = "take the crate from a clone of its repository, by path or by git";
        format!("there is no {}/libbt.a: {clone}, or set BT_LIB_DIR to a folder with one", folder.display())
    })
}

/// The whole path of a folder, if libbt.a is there.
fn with_library(folder: &Path) -> Option<PathBuf> {
    folder.canonicalize().ok().filter(|folder| folder.join("libbt.a").is_file())
}
