//! Links `libhekthumar.a`: that in the folder that HEKTHUMAR_LIB_DIR names, else the one kept in the repository's `lib/`, which is for
//! x86-64 Linux.

use std::path::{Path, PathBuf};

const ARCHIVE: &str = "libhekthumar.a";
const OTHER: &str =
    "HEKTHUMAR_LIB_DIR names a folder with another; with the Rattle kit, `lib/renew --to FOLDER` of the repository builds one from the proofs";

fn main() {
    println!("cargo:rerun-if-env-changed=HEKTHUMAR_LIB_DIR");
    let folder = match std::env::var_os("HEKTHUMAR_LIB_DIR") {
        Some(folder) => PathBuf::from(folder),
        None => kept_archive(),
    };
    let archive = folder.join(ARCHIVE);
    assert!(archive.is_file(), "there is no {}: {OTHER}", archive.display());
    println!("cargo:rerun-if-changed={}", archive.display());
    // for the tests that link a host in C
    println!("cargo:rustc-env=HEKTHUMAR_ARCHIVE={}", archive.display());
    println!("cargo:rustc-link-search=native={}", folder.display());
    println!("cargo:rustc-link-lib=static=hekthumar");
}

/// The repository's folder with the archive for x86-64 Linux.
fn kept_archive() -> PathBuf {
    let of_target = |what: &str| std::env::var(format!("CARGO_CFG_TARGET_{what}")).unwrap_or_default();
    let target = (of_target("ARCH"), of_target("OS"));
    let kept = ("x86_64".to_string(), "linux".to_string());
    assert!(target == kept, "the archive in lib/ is for x86-64 Linux, and this is built for {} {}: {OTHER}", target.0, target.1);
    Path::new(env!("CARGO_MANIFEST_DIR")).join("../../lib")
}
