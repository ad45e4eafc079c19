//! polyfit at commit 17cb73bf71, as the build script assembled it: `src/` with the diffs of
//! `patches/` applied, and `stubs/` for the modules that are missing from the text.

include!(concat!(env!("OUT_DIR"), "/polyfit/lib.rs"));
