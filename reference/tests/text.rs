//! The text under `src/` is byte for byte the published one, and what is compiled is that text with
//! the diffs of `patches/` and nothing else.

use std::collections::{BTreeMap, BTreeSet};
use std::fs;
use std::path::{Path, PathBuf};

#[path = "../patch.rs"]
mod patch;
mod sha256;

fn here() -> PathBuf {
    PathBuf::from(env!("CARGO_MANIFEST_DIR"))
}

/// The lines of HASHES: path and hash.
fn hashes() -> Vec<(String, String)> {
    let text = fs::read_to_string(here().join("HASHES")).unwrap();
    let entry = |line: &str| {
        let (hash, path) = line.split_once("  ").unwrap();
        (path.to_string(), hash.to_string())
    };
    text.lines().map(entry).collect()
}

fn files_below(directory: &Path, files: &mut BTreeSet<PathBuf>) {
    for entry in fs::read_dir(directory).unwrap() {
        let path = entry.unwrap().path();
        if path.is_dir() {
            files_below(&path, files);
        } else {
            files.insert(path);
        }
    }
}

#[test]
fn sha256_of_known_texts() {
    let empty = "e3b0c44298fc1c149afbf4c8996fb92427ae41e4649b934ca495991b7852b855";
    let abc = "ba7816bf8f01cfea414140de5dae2223b00361a396177a9cb410ff61f20015ad";
    let two_blocks = "248d6a61d20638b8e5c026930c3e6039a33ce45964ff2167f6ecedd419db06c1";
    let text = b"abcdbcdecdefdefgefghfghighijhijkijkljklmklmnlmnomnopnopq";
    assert_eq!(sha256::hex(b""), empty);
    assert_eq!(sha256::hex(b"abc"), abc);
    assert_eq!(sha256::hex(text), two_blocks);
}

#[test]
fn text_is_the_published_one() {
    for (path, hash) in hashes() {
        let bytes = fs::read(here().join(&path)).unwrap();
        assert_eq!(sha256::hex(&bytes), hash, "{path}");
    }
}

#[test]
fn every_file_of_the_text_is_listed() {
    let mut files = BTreeSet::new();
    files_below(&here().join("src"), &mut files);
    let listed: BTreeSet<PathBuf> = hashes().iter().map(|(path, _)| here().join(path)).collect();
    assert!(files.is_subset(&listed));
}

/// What the build script made, file by file: the text, or the text with its diffs applied in the
/// order of their names.
#[test]
fn compiled_text_is_the_text_with_the_diffs() {
    let compiled = Path::new(env!("OUT_DIR")).join("polyfit");
    let mut diffs = BTreeSet::new();
    files_below(&here().join("patches"), &mut diffs);
    assert_eq!(diffs.len(), 6);
    let mut patched = BTreeMap::new();
    for diff in diffs {
        let patch = patch::parse(&fs::read_to_string(diff).unwrap()).unwrap();
        let published = || fs::read_to_string(here().join("src").join(&patch.path)).unwrap();
        let text = patched.remove(&patch.path).unwrap_or_else(published);
        let made = patch.apply(&text).unwrap();
        assert_ne!(text, made);
        patched.insert(patch.path, made);
    }
    for (path, hash) in hashes() {
        let Some(path) = path.strip_prefix("src/") else { continue };
        let bytes = fs::read(compiled.join(path)).unwrap();
        match patched.get(path) {
            Some(made) => assert_eq!(bytes, made.as_bytes(), "{path}"),
            None => assert_eq!(sha256::hex(&bytes), hash, "{path}"),
        }
    }
}

#[test]
fn a_diff_that_does_not_fit_is_refused() {
    let diff = "why\n--- a/f\n+++ b/f\n@@ -2,2 +2,2 @@\n b\n-c\n+d\n";
    let patch = patch::parse(diff).unwrap();
    assert_eq!(patch.apply("a\nb\nc\n").unwrap(), "a\nb\nd\n");
    assert!(patch.apply("a\nb\nx\n").is_err());
    assert!(patch.apply("a\nx\nc\n").is_err());
    assert!(patch.apply("b\nc\n").is_err());
}
