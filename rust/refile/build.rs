//! Links the proved archive, `librefile.a`, and takes the room, the sizes and the texts of the refusals
//! from the C header.
//!
//! Both are looked for beside the package, as the repository and a release folder have them, unless
//! `REFILE_LIB_DIR` and `REFILE_INCLUDE_DIR` name other folders.

use std::collections::BTreeMap;
use std::env;
use std::fmt::Write;
use std::fs;
use std::path::{self, Path, PathBuf};

fn main() {
    let package = env::var_os("CARGO_MANIFEST_DIR").expect("cargo names the package");
    let top = Path::new(&package)
        .ancestors()
        .nth(2)
        .expect("the package is at rust/refile");
    link(top);
    let header = folder("REFILE_INCLUDE_DIR", top, &["include"], "refile.h").join("refile.h");
    println!("cargo::rerun-if-changed={}", header.display());
    match fs::read_to_string(&header) {
        Ok(text) => write_header_values(&text),
        Err(_) => println!(
            "cargo::error=There is no header {}. Set REFILE_INCLUDE_DIR to the folder that holds \
             refile.h.",
            header.display()
        ),
    }
}

/// The folder that a variable names, else the first of some beside the package that has the file.
fn folder(variable: &str, top: &Path, beside: &[&str], file: &str) -> PathBuf {
    println!("cargo::rerun-if-env-changed={variable}");
    if let Some(folder) = env::var_os(variable) {
        return path::absolute(folder).expect("the variable names a folder");
    }
    let folders = beside.iter().map(|folder| top.join(folder));
    let there = folders.clone().find(|folder| folder.join(file).is_file());
    there.unwrap_or_else(|| folders.clone().next().expect("some folder"))
}

fn link(top: &Path) {
    let beside = ["target/staticlib", "lib"];
    let folder = folder("REFILE_LIB_DIR", top, &beside, "librefile.a");
    let archive = folder.join("librefile.a");
    println!("cargo::rerun-if-changed={}", archive.display());
    if archive.is_file() {
        println!("cargo::rustc-link-search=native={}", folder.display());
        println!("cargo::rustc-link-lib=static=refile");
        // For the test that links the C example with the same archive.
        println!("cargo::rustc-env=REFILE_ARCHIVE={}", archive.display());
    } else {
        println!(
            "cargo::error=There is no archive {}. Set REFILE_LIB_DIR to the folder that holds \
             librefile.a; in a copy of the sources the script archive in the folder .ci makes it.",
            archive.display()
        );
    }
}

/// The plain numbers that the header defines, by name.
fn defined(header: &str) -> BTreeMap<&str, u32> {
    let lines = header.lines().filter_map(|line| {
        let mut words = line.strip_prefix("#define ")?.split_whitespace();
        let name = words.next()?;
        let number = words.next()?.strip_suffix('u')?.parse().ok()?;
        Some((name, number))
    });
    lines.collect()
}

/// The header's list of texts, each as `X(NAME, "TEXT")`.
fn texts(header: &str) -> Vec<(&str, &str)> {
    let list = header.split("#define REFILE_TEXTS(X)").nth(1);
    let list = list.expect("the header has its list of texts");
    let list = list.split("\n\n").next().expect("the list ends");
    let entries = list.split("X(").skip(1).map(|entry| {
        let (name, rest) = entry.split_once(',').expect("a name");
        let text = rest.split('"').nth(1).expect("a text");
        assert!(!text.contains('\\'), "a text without escapes: {text}");
        (name, text)
    });
    entries.collect()
}

/// The header's plain sizes that the crate has too, the room first. The others follow from these.
const SIZES: [&str; 10] = [
    "DOCUMENTS",
    "REVISIONS",
    "PATH_HASHES",
    "ID_BYTES",
    "HASH_BYTES",
    "LEAF_BYTES",
    "ASKED_BYTES",
    "CHANGES_BYTES",
    "PULL_BYTES",
    "COUNTS_BYTES",
];

/// Writes the header's version, sizes and texts as Rust, for the crate to include.
fn write_header_values(header: &str) {
    let defined = defined(header);
    let number = |name: &str| defined[format!("REFILE_{name}").as_str()];
    let version = ["VERSION_MAJOR", "VERSION_MINOR", "VERSION_PATCH"];
    let [major, minor, patch] = version.map(number);
    let package = env::var("CARGO_PKG_VERSION").expect("cargo names the version");
    if package != format!("{major}.{minor}.{patch}") {
        println!(
            "cargo::error=The header is of version {major}.{minor}.{patch}, and this crate of \
             version {package}: take both from one release."
        );
    }
    let version = 1_000_000 * major + 1_000 * minor + patch;
    let mut rust = format!("pub(crate) const VERSION: u32 = {version};\n");
    for name in SIZES {
        let size = number(name);
        writeln!(rust, "pub(crate) const {name}: usize = {size};").expect("text in memory");
    }
    rust += "pub(crate) const TEXTS: &[(u32, &str)] = &[\n";
    for (name, text) in texts(header) {
        writeln!(rust, "    ({}, {text:?}),", defined[name]).expect("text in memory");
    }
    rust += "];\n";
    let out = env::var_os("OUT_DIR").expect("cargo names a folder for what is made");
    fs::write(Path::new(&out).join("header.rs"), rust).expect("cargo's folder can be written");
}
