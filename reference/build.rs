//! Assembles the crate in the target directory: the text of `src/`, the stubs of `stubs/`, and the
//! diffs of `patches/` applied in the order of their names. No patched copy is kept in the tree.

use std::path::{Path, PathBuf};
use std::{env, fs, io};

mod patch;

fn main() -> io::Result<()> {
    let here = PathBuf::from(env::var_os("CARGO_MANIFEST_DIR").expect("set by cargo"));
    let out = PathBuf::from(env::var_os("OUT_DIR").expect("set by cargo")).join("polyfit");
    if out.exists() {
        fs::remove_dir_all(&out)?;
    }
    for part in ["src", "stubs", "patches", "patch.rs", "build.rs"] {
        println!("cargo:rerun-if-changed={part}");
    }
    copy_into(&here.join("src"), &out)?;
    copy_into(&here.join("stubs"), &out)?;
    for path in sorted_entries(&here.join("patches"))? {
        apply(&path, &out)?;
    }
    Ok(())
}

fn sorted_entries(directory: &Path) -> io::Result<Vec<PathBuf>> {
    let mut paths = Vec::new();
    for entry in fs::read_dir(directory)? {
        paths.push(entry?.path());
    }
    paths.sort();
    Ok(paths)
}

/// Copies a directory. A stub never takes the place of a file of the text.
fn copy_into(from: &Path, to: &Path) -> io::Result<()> {
    fs::create_dir_all(to)?;
    for path in sorted_entries(from)? {
        let target = to.join(path.file_name().expect("an entry has a name"));
        if path.is_dir() {
            copy_into(&path, &target)?;
        } else {
            assert!(!target.exists(), "{} stands twice", target.display());
            fs::write(&target, fs::read(&path)?)?;
        }
    }
    Ok(())
}

fn apply(diff: &Path, out: &Path) -> io::Result<()> {
    let patch = patch::parse(&fs::read_to_string(diff)?).expect("a unified diff");
    let file = out.join(&patch.path);
    let text = patch.apply(&fs::read_to_string(&file)?).expect("the diff fits the text");
    fs::write(file, text)
}
