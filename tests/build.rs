//! Compiles the C files of the tests over the headers, and links the tests with
//! them and with the proved library's archive, which `tests/run` builds first.
//! The paths are relative, so that a copy of the tree, built files and all,
//! links with its own archive.

use std::env::var;
use std::process::Command;

/// Runs a command to its end.
fn run(command: &mut Command) {
    let status = command.status().expect("the C compiler and its tools");
    assert!(status.success(), "{command:?}");
}

fn main() {
    let out = var("OUT_DIR").expect("where to build");
    let (archive, mut objects) = (format!("{out}/libtests_c.a"), Vec::new());
    for name in ["calls", "nulls", "run"] {
        let object = format!("{out}/{name}.o");
        let flags = ["-std=c99", "-O2", "-Wall", "-Wextra", "-Wconversion", "-pedantic", "-Werror"];
        let source = format!("c/{name}.c");
        run(Command::new("cc").args(flags).args(["-I../include", "-c", &source, "-o", &object]));
        objects.push(object);
    }
    run(Command::new("ar").arg("crs").arg(&archive).args(&objects));
    println!("cargo:rustc-link-search=native={out}");
    println!("cargo:rustc-link-lib=static=tests_c");
    println!("cargo:rustc-link-search=native=../target/staticlib");
    for path in ["../target/staticlib/libjournal_c.a", "../include", "c"] {
        println!("cargo:rerun-if-changed={path}");
    }
}
