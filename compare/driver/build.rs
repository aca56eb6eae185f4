//! Links our library: the archive `libtestkit.a` in the folder that TESTKIT_LIBRARY_DIR names.

use std::env;
use std::path::Path;

fn main() {
    println!("cargo:rerun-if-env-changed=TESTKIT_LIBRARY_DIR");
    let folder = env::var("TESTKIT_LIBRARY_DIR").unwrap_or_else(|_| {
        panic!("set TESTKIT_LIBRARY_DIR to the folder of libtestkit.a (compare/run does)")
    });
    let archive = Path::new(&folder).join("libtestkit.a");
    assert!(
        archive.is_absolute() && archive.is_file(),
        "TESTKIT_LIBRARY_DIR: {} is not the absolute path of an archive",
        archive.display()
    );
    println!("cargo:rerun-if-changed={}", archive.display());
    println!("cargo:rustc-link-search=native={folder}");
    println!("cargo:rustc-link-lib=static=testkit");
}
