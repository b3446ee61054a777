// Links the proved library, target/staticlib/libexports.a of the repository, which `tools/build exports` writes.
use std::path::Path;

fn main() {
    let folder = Path::new(env!("CARGO_MANIFEST_DIR")).join("../target/staticlib");
    let library = folder.join("libexports.a");
    if !library.exists() {
        println!("cargo:warning=target/staticlib/libexports.a is missing: run `tools/build exports` first");
    }
    println!("cargo:rustc-link-search=native={}", folder.display());
    println!("cargo:rustc-link-lib=static=exports");
    println!("cargo:rerun-if-changed={}", library.display());
    println!("cargo:rerun-if-changed=build.rs");
}
