//! Compiles the benchmark's fold in C, and what it measures only where it can: the limit, which is C++ for GCC, and GSL's multifit, found by
//! its `gsl-config`. Nothing else needs either.

use std::env;
use std::path::Path;
use std::process::Command;

fn main() {
    println!("cargo:rerun-if-changed=build.rs");
    println!("cargo:rustc-check-cfg=cfg(gsl)");
    println!("cargo:rustc-check-cfg=cfg(limit)");
    compile("cc", &["-O3", "-ffp-contract=off"], "fold.c", "fold");
    if Command::new("g++").arg("--version").output().map_or(false, |found| found.status.success()) {
        let roots = ["-fno-math-errno", "-fno-trapping-math"];
        let alone = ["-fno-exceptions", "-fno-rtti", "-std=c++17", "-O3", "-ffp-contract=off"];
        compile("g++", &[&alone[..], &roots[..]].concat(), "limit.cpp", "limit");
        println!("cargo:rustc-cfg=limit");
    }
    let found = match Command::new("gsl-config").arg("--libs").output() {
        Ok(found) if found.status.success() => found,
        _ => return,
    };
    println!("cargo:rustc-cfg=gsl");
    let words = String::from_utf8_lossy(&found.stdout);
    for word in words.split_whitespace() {
        if let Some(folder) = word.strip_prefix("-L") {
            println!("cargo:rustc-link-search=native={folder}");
        } else if let Some(library) = word.strip_prefix("-l") {
            println!("cargo:rustc-link-lib={library}");
        }
    }
}

/// A file of `c/` to a static library of that name. No product and sum are joined to one step: the bits are document 01's.
fn compile(compiler: &str, words: &[&str], file: &str, name: &str) {
    println!("cargo:rerun-if-changed=c/{file}");
    let folder = env::var("OUT_DIR").expect("cargo sets OUT_DIR");
    let object = Path::new(&folder).join(format!("{name}.o"));
    let library = Path::new(&folder).join(format!("lib{name}.a"));
    let source = Path::new("c").join(file);
    run(Command::new(compiler).args(words).arg("-c").arg(source).arg("-o").arg(&object));
    run(Command::new("ar").arg("crs").arg(library).arg(object));
    println!("cargo:rustc-link-search=native={folder}");
    println!("cargo:rustc-link-lib=static={name}");
}

fn run(command: &mut Command) {
    let status = command.status().unwrap_or_else(|error| panic!("{command:?}: {error}"));
    assert!(status.success(), "{command:?}: {status}");
}
