//! Lays out the original's files, byte for byte, next to our stand-ins. Where
//! the checkout is not there, the crate is built without them.

use std::env;
use std::fs;
use std::io;
use std::path::{Path, PathBuf};

/// The original's files: path, length, digest.
const TEXT: &str = include_str!("text.txt");
const STAND_INS: &str = "stand_ins/tree";
/// Where a checkout is looked for, from this crate.
const DEFAULT_CHECKOUT: &str = "../../../shared/docs/src/src";

/// The modules at the original's root that hold text of its own.
const ORIGINAL_MODULES: [&str; 11] = [
    "array",
    "ast",
    "compile",
    "debug",
    "jet",
    "named",
    "num",
    "pattern",
    "str",
    "template_program",
    "types",
];

/// Those that are stand-ins whole.
const OUR_MODULES: [&str; 7] = [
    "driver", "error", "lexer", "parse", "unstable", "value", "witness",
];

/// The file that is taken from this trait on; a stand-in has what is before it.
const CUT_FILE: &str = "named.rs";
const CUT_AT: &str = "pub trait CoreExt";

struct Text {
    path: &'static str,
    length: usize,
    digest: u64,
}

fn texts() -> Vec<Text> {
    let line = |line: &'static str| {
        let mut words = line.split_whitespace();
        Text {
            path: words.next().expect("a path"),
            length: words.next().and_then(|n| n.parse().ok()).expect("a length"),
            digest: words
                .next()
                .and_then(|n| u64::from_str_radix(n, 16).ok())
                .expect("a digest"),
        }
    };
    TEXT.lines().map(line).collect()
}

/// FNV-1a: it tells revisions apart, and needs no crate.
fn digest(bytes: &[u8]) -> u64 {
    bytes.iter().fold(0xcbf2_9ce4_8422_2325, |hash, byte| {
        (hash ^ u64::from(*byte)).wrapping_mul(0x0000_0100_0000_01b3)
    })
}

fn main() {
    println!("cargo::rustc-check-cfg=cfg(original_here)");
    println!("cargo::rustc-check-cfg=cfg(original_revision)");
    // The original's files ask for it; it is never set.
    println!("cargo::rustc-check-cfg=cfg(feature, values(\"arbitrary\"))");
    println!("cargo::rerun-if-env-changed=SIMPLICITYHL_SRC");
    println!("cargo::rerun-if-changed={STAND_INS}");
    println!("cargo::rerun-if-changed=build.rs");

    let checkout = match env::var_os("SIMPLICITYHL_SRC") {
        Some(path) => PathBuf::from(path),
        None => crate_root().join(DEFAULT_CHECKOUT),
    };
    let texts = texts();
    for text in &texts {
        // Cargo looks again at each build for a path that is missing, so a
        // checkout that comes later is found.
        println!(
            "cargo::rerun-if-changed={}",
            checkout.join(text.path).display()
        );
    }
    let read = |text: &Text| fs::read(checkout.join(text.path)).ok();
    let Some(contents) = texts.iter().map(read).collect::<Option<Vec<_>>>() else {
        return;
    };
    let out = PathBuf::from(env::var_os("OUT_DIR").expect("cargo sets it"));
    stage(&out.join("staged"), &texts, &contents).expect("the output directory can be written");

    println!("cargo::rustc-cfg=original_here");
    let listed = |(text, bytes): (&Text, &Vec<u8>)| {
        text.length == bytes.len() && text.digest == digest(bytes)
    };
    if texts.iter().zip(&contents).all(listed) {
        println!("cargo::rustc-cfg=original_revision");
    }
}

fn crate_root() -> PathBuf {
    PathBuf::from(env::var_os("CARGO_MANIFEST_DIR").expect("cargo sets it"))
}

fn stage(staged: &Path, texts: &[Text], contents: &[Vec<u8>]) -> io::Result<()> {
    if staged.exists() {
        fs::remove_dir_all(staged)?;
    }
    copy_tree(&crate_root().join(STAND_INS), staged)?;
    for (text, bytes) in texts.iter().zip(contents) {
        let place = staged.join(text.path);
        match text.path {
            CUT_FILE => append(&place, from_the_cut(bytes))?,
            _ => {
                assert!(!place.exists(), "{} has a stand-in", text.path);
                fs::create_dir_all(place.parent().expect("a directory"))?;
                fs::write(place, bytes)?;
            }
        }
    }
    // Much of the original's text serves parts of it that are not here.
    let theirs =
        ORIGINAL_MODULES.map(|name| format!("#[allow(warnings, clippy::all)]\nmod {name};\n"));
    let ours = OUR_MODULES.map(|name| format!("mod {name};\n"));
    let root = fs::read_to_string(staged.join("root.rs"))?;
    fs::write(
        staged.join("modules.rs"),
        theirs.concat() + &ours.concat() + &root,
    )
}

fn copy_tree(from: &Path, to: &Path) -> io::Result<()> {
    fs::create_dir_all(to)?;
    for entry in fs::read_dir(from)? {
        let entry = entry?;
        let place = to.join(entry.file_name());
        if entry.file_type()?.is_dir() {
            copy_tree(&entry.path(), &place)?;
        } else {
            fs::copy(entry.path(), place)?;
        }
    }
    Ok(())
}

fn append(place: &Path, bytes: &[u8]) -> io::Result<()> {
    let before = fs::read(place)?;
    fs::write(place, [&before, bytes].concat())
}

/// What follows the cut, with the comment lines right before it.
fn from_the_cut(bytes: &[u8]) -> &[u8] {
    let text = std::str::from_utf8(bytes).expect("source text");
    let mut cut = text.find(CUT_AT).expect("the trait that the cut is at");
    while let Some(line) = text[..cut].lines().last() {
        if !line.starts_with("///") {
            break;
        }
        cut -= line.len() + 1;
    }
    &bytes[cut..]
}
