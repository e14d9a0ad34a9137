// Links the archive that `./staticlib recordcalls` writes.
fn main() {
    let root = std::path::Path::new(env!("CARGO_MANIFEST_DIR")).join("../..");
    let folder = root.join("target/staticlib");
    let archive = folder.join("librecordcalls.a");
    println!("cargo:rerun-if-changed={}", archive.display());
    assert!(archive.exists(), "{}: `./staticlib recordcalls` writes it", archive.display());
    println!("cargo:rustc-link-search=native={}", folder.display());
    println!("cargo:rustc-link-lib=static=recordcalls");
}
