//! Finds `libgtp_c.a` and `liblibc_c.a`: in the folders of `GTP_LIB_DIR`, else beside an installed copy of this crate, else where
//! pkg-config says.

use std::env;
use std::path::{Path, PathBuf};
use std::process::Command;

/// The folders that hold the libraries.
fn folders() -> Vec<PathBuf> {
    if let Some(dirs) = env::var_os("GTP_LIB_DIR") {
        return env::split_paths(&dirs).collect();
    }
    let here = env::var_os("CARGO_MANIFEST_DIR").expect("cargo sets it");
    let beside = Path::new(&here).join("../../../lib");
    if Path::new(&here).ends_with("share/gtp/rust") && beside.join("libgtp_c.a").exists() {
        return vec![beside];
    }
    let found = Command::new("pkg-config").args(["--variable=libdir", "gtp"]).output();
    match found {
        Ok(found) if found.status.success() => vec![String::from_utf8_lossy(&found.stdout).trim().into()],
        _ => panic!("libgtp_c.a was not found: set GTP_LIB_DIR to the folders of libgtp_c.a and liblibc_c.a"),
    }
}

fn main() {
    println!("cargo::rerun-if-env-changed=GTP_LIB_DIR");
    for folder in folders() {
        for library in ["libgtp_c.a", "liblibc_c.a"] {
            let file = folder.join(library);
            if file.exists() {
                println!("cargo::rerun-if-changed={}", file.display());
            }
        }
        println!("cargo::rustc-link-search=native={}", folder.display());
    }
    println!("cargo::rustc-link-lib=static=gtp_c");
    println!("cargo::rustc-link-lib=static=libc_c");
}
