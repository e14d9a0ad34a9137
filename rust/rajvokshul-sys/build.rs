//! Links the archive of the proved library: `libffi.a`, which `./staticlib ffi` writes, or `librajvokshul.a`, which is the
//! same under the name that it is installed by. It is looked for in the folder that `RAJVOKSHUL_LIB_DIR` names, else where
//! it stands beside this crate: in the repository's `target/staticlib`, or in the installation's `lib`.

use std::path::{Path, PathBuf};
use std::{env, fs};

/// Where the archive may stand.
fn candidates(crate_dir: &Path) -> Vec<PathBuf> {
    if let Some(dir) = env::var_os("RAJVOKSHUL_LIB_DIR") {
        let dir = PathBuf::from(dir);
        return vec![dir.join("librajvokshul.a"), dir.join("libffi.a")];
    }
    let repository = crate_dir.join("../..");
    if repository.join("crates.txt").exists() {
        return vec![repository.join("target/staticlib/libffi.a")];
    }
    vec![crate_dir.join("../../../../lib/librajvokshul.a")]
}

fn main() {
    println!("cargo:rerun-if-env-changed=RAJVOKSHUL_LIB_DIR");
    let crate_dir = PathBuf::from(env::var_os("CARGO_MANIFEST_DIR").unwrap());
    let candidates = candidates(&crate_dir);
    for candidate in &candidates {
        println!("cargo:rerun-if-changed={}", candidate.display());
    }
    let Some(archive) = candidates.iter().find(|candidate| candidate.exists()) else {
        panic!("the archive of the library is not there: {candidates:?}; `./staticlib ffi` writes it in the repository, and RAJVOKSHUL_LIB_DIR may name its folder");
    };
    // Under a name of its own, so that the linker takes no other `libffi` for it.
    let out = PathBuf::from(env::var_os("OUT_DIR").unwrap());
    if let Err(e) = fs::copy(archive, out.join("librajvokshul_ffi.a")) {
        panic!("{}: {e}", archive.display());
    }
    println!("cargo:rustc-link-search=native={}", out.display());
    println!("cargo:rustc-link-lib=static=rajvokshul_ffi");
}
