//! Links libcapi.a, which `tools/build.sh capi` writes to target/staticlib; another folder is named by
//! the variable STAKEBOOK_LIB_DIR.

use std::path::PathBuf;

fn main() {
    println!("cargo:rerun-if-env-changed=STAKEBOOK_LIB_DIR");
    let folder = match std::env::var_os("STAKEBOOK_LIB_DIR") {
        Some(folder) => PathBuf::from(folder),
        None => PathBuf::from(env!("CARGO_MANIFEST_DIR")).with_file_name("target/staticlib"),
    };
    let library = folder.join("libcapi.a");
    println!("cargo:rerun-if-changed={}", library.display());
    if !library.exists() {
        eprintln!("{} is missing: `tools/build.sh capi` makes it", library.display());
        std::process::exit(1);
    }
    println!("cargo:rustc-link-search=native={}", folder.display());
    println!("cargo:rustc-link-lib=static=capi");
}
