//! Writes the declarations, where the repository is around this crate, and links libetcs_unit.a: that in the folder `$ETCS_UNIT_LIB`,
//! else the one that pkg-config finds.
use std::env;
use std::path::Path;
use std::process::Command;

/// Writes src/declared.rs and the numbers of etcs-unit by tools/dev/bindings. A release has them, and no such tool.
fn write_declarations() {
    let top = Path::new(env!("CARGO_MANIFEST_DIR")).join("../../..");
    let tool = top.join("tools/dev/bindings");
    if tool.exists() {
        println!("cargo:rerun-if-changed={}\ncargo:rerun-if-changed={}", top.join("c/include").display(), top.join("tools").display());
        match Command::new(tool).output() {
            Ok(done) if done.status.success() => {}
            done => panic!("tools/dev/bindings failed: {done:?}"),
        }
    }
}

fn main() {
    write_declarations();
    for name in ["ETCS_UNIT_LIB", "PKG_CONFIG_PATH"] {
        println!("cargo:rerun-if-env-changed={name}");
    }
    let folder = env::var("ETCS_UNIT_LIB").unwrap_or_else(|_| {
        let done = Command::new("pkg-config").args(["--variable=libdir", "etcs_unit"]).output();
        match done {
            Ok(done) if done.status.success() => String::from_utf8_lossy(&done.stdout).trim().to_string(),
            _ => panic!("no library: tools/library PREFIX installs it; set ETCS_UNIT_LIB=PREFIX/lib or PKG_CONFIG_PATH=PREFIX/lib/pkgconfig"),
        }
    });
    println!("cargo:rustc-link-search=native={folder}");
    println!("cargo:rustc-link-lib=static=etcs_unit");
}
