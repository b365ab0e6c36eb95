//! Compiles the reference (reference/ of the repository, in C) and links it.

use std::path::Path;
use std::process::Command;

fn run(command: &mut Command) {
    let status = command.status().unwrap_or_else(|error| panic!("{command:?}: {error}"));
    assert!(status.success(), "{command:?}: {status}");
}

fn main() {
    let root = Path::new(env!("CARGO_MANIFEST_DIR")).join("../..");
    let out = std::env::var("OUT_DIR").expect("cargo sets OUT_DIR");
    let compiler = std::env::var("CC").unwrap_or("cc".to_string());
    let (object, archive) = (format!("{out}/reference.o"), format!("{out}/libreference.a"));
    let mut compile = Command::new(compiler);
    compile
        .args(["-std=c11", "-Wall", "-Wextra", "-Werror", "-pedantic", "-O2", "-fPIC", "-I"])
        .arg(root.join("include"));
    run(compile.arg("-c").arg(root.join("reference/reference.c")).args(["-o", &object]));
    run(Command::new("ar").args(["rcs", &archive, &object]));
    for file in ["reference/reference.c", "reference/reference.h", "include/vtil.h"] {
        println!("cargo:rerun-if-changed={}", root.join(file).display());
    }
    println!("cargo:rerun-if-env-changed=CC");
    println!("cargo:rustc-link-search=native={out}");
    println!("cargo:rustc-link-lib=static=reference");
}
