//! Brings the crate's two files below OUT_DIR, so that no copy of them is tracked.

use std::path::{Path, PathBuf};
use std::{env, fs};

const SOURCES: &str = "PRALAKUON_CRATE_SOURCES";

fn main() {
    println!("cargo:rerun-if-env-changed={SOURCES}");
    let here = PathBuf::from(env::var("CARGO_MANIFEST_DIR").unwrap());
    let sources = match env::var_os(SOURCES) {
        Some(folder) => PathBuf::from(folder),
        None => here.join("../../shared/docs/src"),
    };
    let out = PathBuf::from(env::var("OUT_DIR").unwrap());
    fs::create_dir_all(out.join("format")).unwrap();
    for name in ["mod.rs", "parser.rs"] {
        let file = find(&sources, name);
        println!("cargo:rerun-if-changed={}", file.display());
        // Written anew, not copied: a read-only source would make a copy that cannot be replaced.
        let text = fs::read(&file).unwrap();
        fs::write(out.join("format").join(name), text).unwrap();
    }
    let lock = here.join("Cargo.lock");
    println!("cargo:rerun-if-changed={}", lock.display());
    println!("cargo:rustc-env=PRALAKUON_VERSIONS={}", versions(&lock));
}

fn find(sources: &Path, name: &str) -> PathBuf {
    let flat = format!("src--src--log--format--{name}.txt");
    [sources.join(flat), sources.join("format").join(name), sources.join(name)]
        .into_iter()
        .find(|file| file.is_file())
        .unwrap_or_else(|| panic!("no {name} in {}: give its folder to oracle/setup", sources.display()))
}

/// "name version" of the dependencies whose behaviour is judged, from the lock file that the build used.
fn versions(lock: &Path) -> String {
    let text = fs::read_to_string(lock).unwrap();
    let value = |line: &str| line.split('"').nth(1).unwrap_or("").to_string();
    let mut found = Vec::new();
    for package in text.split("[[package]]") {
        let field = |key: &str| package.lines().find(|l| l.starts_with(key)).map(value).unwrap_or_default();
        let name = field("name = ");
        if ["nom", "colored", "regex", "log", "dissimilar"].contains(&name.as_str()) {
            found.push(format!("{name} {}", field("version = ")));
        }
    }
    let compiler = std::process::Command::new(env::var_os("RUSTC").unwrap()).arg("--version").output().unwrap();
    let compiler = String::from_utf8_lossy(&compiler.stdout);
    found.push(compiler.split_whitespace().take(2).collect::<Vec<_>>().join(" "));
    found.join(", ")
}
