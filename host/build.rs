//! Tells the linker where the proved archive is: in the folder that PRALAKUON_ARCHIVE names, or where host/archive
//! leaves it. What is wrong with it is said in one line.

use std::path::{Path, PathBuf};
use std::{env, fs, process};

const VARIABLE: &str = "PRALAKUON_ARCHIVE";
const ARCHIVE: &str = "libpralakuon_c.a";

/// The entry that archives before 0.2.0 don't have.
const NEWEST: &[u8] = b"pralakuon_version";

fn main() {
    println!("cargo:rerun-if-env-changed={VARIABLE}");
    let said = found().and_then(|folder| fit(&folder.join(ARCHIVE)).map(|()| folder));
    let folder = said.unwrap_or_else(|wrong| {
        eprintln!("pralakuon: {wrong}");
        process::exit(1);
    });
    println!("cargo:rustc-link-search=native={}", folder.display());
    println!("cargo:rustc-link-lib=static=pralakuon_c");
    // For the test that compiles a C program against the same archive.
    println!("cargo:rustc-env=PRALAKUON_ARCHIVE_FOLDER={}", folder.display());
}

/// What cargo says of the build.
fn told(variable: &str) -> String {
    env::var(variable).unwrap_or_default()
}

/// The folder with the archive.
fn found() -> Result<PathBuf, String> {
    let host = PathBuf::from(told("CARGO_MANIFEST_DIR"));
    match env::var_os(VARIABLE).filter(|folder| !folder.is_empty()) {
        Some(folder) => named(&host.join(folder)),
        None => left_by_script(&host),
    }
}

/// The folder that the variable names; a relative path begins at this crate's folder.
fn named(folder: &Path) -> Result<PathBuf, String> {
    println!("cargo:rerun-if-changed={}", folder.join(ARCHIVE).display());
    if !folder.is_dir() {
        Err(format!("{VARIABLE} names {}, which is no folder", folder.display()))
    } else if !folder.join(ARCHIVE).is_file() {
        Err(format!("{VARIABLE} names {}, a folder without {ARCHIVE}", folder.display()))
    } else {
        Ok(folder.to_path_buf())
    }
}

/// Where host/archive leaves archives: that for another target has a folder of its own.
fn left_by_script(host: &Path) -> Result<PathBuf, String> {
    let folder = host.join("../target/archive");
    // The folder, not its files: a file that is not there would have everything built anew each time.
    println!("cargo:rerun-if-changed={}", folder.display());
    // For this machine it is always the one that plain host/archive renews.
    let crossing = told("HOST") != told("TARGET");
    let found = [folder.join(told("TARGET")), folder.clone()].into_iter().skip(usize::from(!crossing));
    let found = found.into_iter().find(|folder| folder.join(ARCHIVE).is_file());
    found.ok_or_else(|| format!("no archive {}: run host/archive first", folder.join(ARCHIVE).display()))
}

/// An archive for another processor would be passed over by the linker, and all entries would seem to be missing. One
/// that is too old has no version to be compared.
fn fit(archive: &Path) -> Result<(), String> {
    let bytes = fs::read(archive).map_err(|error| format!("{} cannot be read: {error}", archive.display()))?;
    let members = members(&bytes).ok_or_else(|| format!("{} is not laid out as an archive", archive.display()))?;
    let wanted = wanted();
    match members.into_iter().find_map(processor) {
        Some(processor) if processor != wanted => {
            Err(format!("{} is for {processor}, and this build is for {wanted}: {}", archive.display(), right_one()))
        }
        _ if !bytes.windows(NEWEST.len()).any(|name| name == NEWEST) => {
            Err(format!("{} is older than version 0.2.0: run host/archive to make it anew", archive.display()))
        }
        _ => Ok(()),
    }
}

/// How to come by the right archive.
fn right_one() -> String {
    let target = told("TARGET");
    match (told(VARIABLE).is_empty(), told("HOST") == target) {
        (false, _) => format!("let {VARIABLE} name a folder with one for it"),
        (true, true) => "run host/archive to make it anew".to_string(),
        (true, false) => format!("host/archive --target {target} makes the right one"),
    }
}

/// The processor that this build is for, as `processor` names it.
fn wanted() -> String {
    let apple = told("CARGO_CFG_TARGET_VENDOR") == "apple";
    told("CARGO_CFG_TARGET_ARCH") + if apple { ", Apple" } else { "" }
}

/// What an archive holds, its tables among it.
fn members(archive: &[u8]) -> Option<Vec<&[u8]>> {
    const HEAD: usize = 60;
    let mut rest = archive.strip_prefix(b"!<arch>\n")?;
    let mut members = Vec::new();
    while !rest.is_empty() {
        let head = rest.get(..HEAD)?;
        let number = |text: &[u8]| std::str::from_utf8(text).ok()?.trim_end().parse::<usize>().ok();
        let size = number(&head[48..58])?;
        // On a Mac the name may stand before the member, as a part of it.
        let name = head.strip_prefix(b"#1/").map_or(Some(0), |rest| number(&rest[..13]))?;
        members.push(rest.get(HEAD + name..HEAD + size)?);
        // Members begin at even places; behind the last nothing needs to stand.
        rest = rest.get(HEAD + size + size % 2..).unwrap_or_default();
    }
    Some(members)
}

/// The processor that an object is for, as cargo names it, and whether it is Apple's. None for what is no object, and
/// for a processor that is not known here: the linker will have its say.
fn processor(object: &[u8]) -> Option<&'static str> {
    let number = |at: usize, size: usize| {
        Some(object.get(at..at + size)?.iter().rev().fold(0u32, |sum, byte| sum << 8 | u32::from(*byte)))
    };
    if object.starts_with(b"\x7fELF") {
        // Little-endian, as all of these are.
        return match number(18, 2)? {
            3 => Some("x86"),
            40 => Some("arm"),
            62 => Some("x86_64"),
            183 => Some("aarch64"),
            243 => Some("riscv64"),
            _ => None,
        };
    }
    if object.starts_with(b"\xcf\xfa\xed\xfe") {
        return match number(4, 4)? {
            0x0100_0007 => Some("x86_64, Apple"),
            0x0100_000c => Some("aarch64, Apple"),
            _ => None,
        };
    }
    None
}
