//! The build script: where it finds the archive, and the one line that it says where it does not.

#[path = "common/tool.rs"]
mod tool;

use std::fs;
use std::path::{Path, PathBuf};
use std::process::Command;
use std::sync::Once;
use tool::{done, folder, rustc};

/// A folder of a test with what cargo would have around the script: `repository/host`.
fn scene(name: &str) -> PathBuf {
    let scene = folder("build_script").join(name);
    let _ = fs::remove_dir_all(&scene);
    fs::create_dir_all(scene.join("repository/host")).unwrap();
    scene
}

fn script() -> PathBuf {
    static COMPILED: Once = Once::new();
    let program = folder("build_script").join("script");
    COMPILED.call_once(|| drop(done(rustc("build.rs").arg("-o").arg(&program))));
    program
}

/// What the script says to cargo for a target such as `x86_64-some-system`, or the one line with which it ends.
fn run(scene: &Path, target: &str, archive: Option<&str>) -> Result<String, String> {
    let host = scene.join("repository/host");
    let mut parts = target.split('-');
    let mut command = Command::new(script());
    command.current_dir(&host).env("CARGO_MANIFEST_DIR", &host).env_remove("PRALAKUON_ARCHIVE").env("TARGET", target);
    command.env("HOST", "x86_64-some-system");
    for variable in ["CARGO_CFG_TARGET_ARCH", "CARGO_CFG_TARGET_VENDOR"] {
        command.env(variable, parts.next().unwrap());
    }
    if let Some(archive) = archive {
        command.env("PRALAKUON_ARCHIVE", archive);
    }
    let output = command.output().unwrap();
    let [out, line] = [output.stdout, output.stderr].map(|bytes| String::from_utf8(bytes).unwrap());
    if output.status.success() {
        assert_eq!(line, "");
        return Ok(out);
    }
    assert_eq!(output.status.code(), Some(1));
    assert!(!out.contains("rustc-link"), "{out}");
    assert!(line.ends_with('\n') && line.matches('\n').count() == 1, "one line: {line}");
    // The scene's own place is not the same everywhere.
    Err(line.trim_end().replace(scene.to_str().unwrap(), "SCENE"))
}

/// An archive with a table, as `ar` makes one, and one object that begins so.
fn archive(name: &str, object: &[u8]) -> Vec<u8> {
    let member = |name: &str, bytes: &[u8]| {
        let mut member = format!("{name:<16}{:<12}{:<6}{:<6}{:<8}{:<10}`\n", 0, 0, 0, 644, bytes.len()).into_bytes();
        member.extend(bytes);
        member.resize(member.len() + bytes.len() % 2, b'\n');
        member
    };
    [b"!<arch>\n".to_vec(), member("/", b"odd"), member(name, object)].concat()
}

fn elf(machine: u16) -> Vec<u8> {
    [&b"\x7fELF\x02\x01\x01\0\0\0\0\0\0\0\0\0\x01\0"[..], &machine.to_le_bytes(), b"\0pralakuon_version\0"].concat()
}

fn mach_o(processor: u32) -> Vec<u8> {
    [&b"\xcf\xfa\xed\xfe"[..], &processor.to_le_bytes(), b"\0_pralakuon_version\0"].concat()
}

fn leave(folder: PathBuf, archive: &[u8]) {
    fs::create_dir_all(&folder).unwrap();
    fs::write(folder.join("libpralakuon_c.a"), archive).unwrap();
}

#[test]
fn no_archive() {
    let said = run(&scene("none"), "x86_64-some-system", None).unwrap_err();
    let looked_for = "SCENE/repository/host/../target/archive/libpralakuon_c.a";
    assert_eq!(said, format!("pralakuon: no archive {looked_for}: run host/archive first"));
}

#[test]
fn the_variable_names_no_folder() {
    let scene = scene("variable");
    let missing = scene.join("missing");
    let said = run(&scene, "x86_64-some-system", missing.to_str()).unwrap_err();
    assert_eq!(said, "pralakuon: PRALAKUON_ARCHIVE names SCENE/missing, which is no folder");
    // A relative path begins at the crate's folder, and the line says where that leads.
    let said = run(&scene, "x86_64-some-system", Some("missing")).unwrap_err();
    assert_eq!(said, "pralakuon: PRALAKUON_ARCHIVE names SCENE/repository/host/missing, which is no folder");
    // The archive itself is no folder.
    leave(scene.join("there"), &archive("a.o/", &elf(62)));
    let said = run(&scene, "x86_64-some-system", scene.join("there/libpralakuon_c.a").to_str()).unwrap_err();
    assert_eq!(said, "pralakuon: PRALAKUON_ARCHIVE names SCENE/there/libpralakuon_c.a, which is no folder");
}

#[test]
fn the_variable_names_a_folder_without_the_archive() {
    let scene = scene("empty");
    let said = run(&scene, "x86_64-some-system", scene.to_str()).unwrap_err();
    assert_eq!(said, "pralakuon: PRALAKUON_ARCHIVE names SCENE, a folder without libpralakuon_c.a");
}

/// Targets, what the script calls them, and objects for them.
fn targets() -> [(&'static str, &'static str, Vec<u8>); 5] {
    [
        ("riscv64-some-system", "riscv64", elf(243)),
        ("x86_64-some-system", "x86_64", elf(62)),
        ("aarch64-some-system", "aarch64", elf(183)),
        ("x86_64-apple-darwin", "x86_64, Apple", mach_o(0x0100_0007)),
        ("aarch64-apple-darwin", "aarch64, Apple", mach_o(0x0100_000c)),
    ]
}

#[test]
fn an_archive_for_another_processor() {
    let scene = scene("processor");
    let there = scene.join("there");
    for (_, archive_is_for, object) in targets() {
        // Its name in the head, in a table, and before the member as on a Mac.
        let before = [b"a.o\0", &object[..]].concat();
        for archive in [archive("a.o/", &object), archive("/12", &object), archive("#1/4", &before)] {
            leave(there.clone(), &archive);
            for (target, build_is_for, _) in targets() {
                let said = run(&scene, target, there.to_str());
                if archive_is_for == build_is_for {
                    let search = format!("cargo:rustc-link-search=native={}\n", there.display());
                    assert!(said.as_ref().unwrap().contains(&search), "{said:?}");
                    continue;
                }
                let expected = format!(
                    "pralakuon: SCENE/there/libpralakuon_c.a is for {archive_is_for}, and this build is for \
                     {build_is_for}: let PRALAKUON_ARCHIVE name a folder with one for it"
                );
                assert_eq!(said, Err(expected));
            }
        }
    }
}

#[test]
fn an_archive_that_is_too_old() {
    let scene = scene("old");
    leave(scene.join("there"), &archive("a.o/", &elf(62)[..24]));
    let said = run(&scene, "x86_64-some-system", scene.join("there").to_str()).unwrap_err();
    let expected = "is older than version 0.2.0: run host/archive to make it anew";
    assert_eq!(said, format!("pralakuon: SCENE/there/libpralakuon_c.a {expected}"));
}

#[test]
fn what_is_no_archive() {
    let scene = scene("wrong");
    for bytes in [&b""[..], b"hello", b"!<arch>\nhello", &archive("a.o/", &elf(62))[..100]] {
        leave(scene.join("there"), bytes);
        let said = run(&scene, "x86_64-some-system", scene.join("there").to_str()).unwrap_err();
        assert_eq!(said, "pralakuon: SCENE/there/libpralakuon_c.a is not laid out as an archive");
    }
}

#[test]
fn the_archive_of_the_target_comes_before_that_of_this_machine() {
    let scene = scene("target");
    let archives = scene.join("repository/target/archive");
    leave(archives.clone(), &archive("a.o/", &elf(62)));
    assert!(run(&scene, "x86_64-some-system", None).unwrap().contains("host/../target/archive\n"));
    let said = run(&scene, "aarch64-some-system", None).unwrap_err();
    assert!(said.ends_with("for aarch64: host/archive --target aarch64-some-system makes the right one"), "{said}");
    leave(archives.join("aarch64-some-system"), &archive("a.o/", &elf(183)));
    assert!(run(&scene, "aarch64-some-system", None).unwrap().contains("host/../target/archive/aarch64-some-system\n"));
    // For this machine plain host/archive renews one archive only, and an empty variable names none.
    leave(archives.join("x86_64-some-system"), &archive("a.o/", &elf(62)));
    for variable in [None, Some("")] {
        assert!(run(&scene, "x86_64-some-system", variable).unwrap().contains("host/../target/archive\n"));
    }
    leave(archives, &archive("a.o/", &elf(183)));
    let said = run(&scene, "x86_64-some-system", None).unwrap_err();
    assert!(said.ends_with("for x86_64: run host/archive to make it anew"), "{said}");
}
