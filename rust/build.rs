// Links the static library, which `tools/build` writes. LISTENING_LIBRARY names another folder to find it in.
use std::env;
use std::path::PathBuf;

fn main() {
    let folder = env::var_os("LISTENING_LIBRARY")
        .map(PathBuf::from)
        .unwrap_or_else(|| PathBuf::from(env::var_os("CARGO_MANIFEST_DIR").expect("cargo sets it")).join("../target/staticlib"));
    let archive = folder.join("liblistening_c.a");
    assert!(archive.exists(), "{} is missing: run `tools/build`", archive.display());
    println!("cargo:rerun-if-env-changed=LISTENING_LIBRARY");
    println!("cargo:rerun-if-changed={}", archive.display());
    println!("cargo:rustc-link-search=native={}", folder.display());
    println!("cargo:rustc-link-lib=static=listening_c");
}
