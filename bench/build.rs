//! Compiles the loop in C that is measured, src/by_offset.c, and links it.

use std::path::Path;
use std::process::Command;

fn run(command: &mut Command) {
    let status = command.status().unwrap_or_else(|error| panic!("{command:?}: {error}"));
    assert!(status.success(), "{command:?}: {status}");
}

fn main() {
    let folder = Path::new(env!("CARGO_MANIFEST_DIR"));
    let (source, header) = (folder.join("src/by_offset.c"), folder.join("../include/vtil.h"));
    let out = std::env::var("OUT_DIR").expect("cargo sets OUT_DIR");
    let compiler = std::env::var("CC").unwrap_or("cc".to_string());
    let (object, archive) = (format!("{out}/by_offset.o"), format!("{out}/libby_offset.a"));
    let mut compile = Command::new(compiler);
    compile.args(["-std=c11", "-Wall", "-Wextra", "-Werror", "-pedantic", "-O2", "-fPIC", "-I"]);
    run(compile.arg(folder.join("../include")).arg("-c").arg(&source).args(["-o", &object]));
    run(Command::new("ar").args(["rcs", &archive, &object]));
    for file in [source, header] {
        println!("cargo:rerun-if-changed={}", file.display());
    }
    println!("cargo:rerun-if-env-changed=CC");
    println!("cargo:rustc-link-search=native={out}");
    println!("cargo:rustc-link-lib=static=by_offset");
}
