//! The version of the archive: compared before every call.

#[path = "common/tool.rs"]
mod tool;

use pralakuon::{archive_version, Version};
use tool::{done, folder, rustc};

#[test]
fn this_archive_is_of_this_version() {
    assert!(Version::HOST.works_with(archive_version()), "the archive is {}", archive_version());
    assert_eq!(Version::HOST.to_string(), env!("CARGO_PKG_VERSION"));
}

#[test]
fn the_header_is_of_this_version() {
    let header = include_str!("../../include/pralakuon.h");
    let number = |part: &str| {
        let define = format!("#define PRALAKUON_VERSION_{part} ");
        header.lines().find_map(|line| line.strip_prefix(&define)).expect("a number of the version").to_string()
    };
    assert_eq!(["MAJOR", "MINOR", "PATCH"].map(number).join("."), env!("CARGO_PKG_VERSION"));
}

/// The archive at hand has one version and refuses by known numbers only. So the crate is compiled a second time, over
/// entries that a program has in the archive's place.
#[test]
fn another_version_is_not_called_and_another_number_is_an_error() {
    let folder = folder("standin");
    let mut library = rustc("src/lib.rs");
    library.args(["--crate-name", "pralakuon", "--crate-type", "rlib", "--out-dir"]).arg(&folder);
    library.env("CARGO_PKG_VERSION_MAJOR", env!("CARGO_PKG_VERSION_MAJOR"));
    library.env("CARGO_PKG_VERSION_MINOR", env!("CARGO_PKG_VERSION_MINOR"));
    library.env("CARGO_PKG_VERSION_PATCH", env!("CARGO_PKG_VERSION_PATCH"));
    done(&mut library);

    let program = folder.join("program");
    let mut found = std::ffi::OsString::from("pralakuon=");
    found.push(folder.join("libpralakuon.rlib"));
    done(rustc("tests/standin/program.rs").arg("--extern").arg(found).arg("-o").arg(&program));
    done(&mut std::process::Command::new(program));
}
