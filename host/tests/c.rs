//! What a C engineer gets: the header, the pair beside it, the archive and the installation. Programs are compiled as
//! strictly as C99 and C++11 allow, linked with the archive and run.

use pralakuon::{HostRecord, Level, Record, Refusal, Settings, SheetWriter};
use std::collections::BTreeSet;
use std::env;
use std::ffi::OsString;
use std::fs;
use std::io::{self, Write};
use std::path::{Path, PathBuf};
use std::process::{Command, Stdio};
use std::sync::atomic::{AtomicUsize, Ordering};

const ARCHIVE: &str = env!("PRALAKUON_ARCHIVE_FOLDER");
const STRICT: [&str; 4] = ["-Wall", "-Wextra", "-Werror", "-pedantic"];
const C99: [&str; 1] = ["-std=c99"];
const CPP11: [&str; 3] = ["-x", "c++", "-std=c++11"];
const SANITIZERS: [&str; 2] = ["-fsanitize=address,undefined", "-fno-sanitize-recover=all"];

fn host(path: &str) -> PathBuf {
    Path::new(env!("CARGO_MANIFEST_DIR")).join(path)
}

/// A place for what a test makes.
fn made(name: &str) -> PathBuf {
    Path::new(env!("CARGO_TARGET_TMPDIR")).join(name)
}

fn compiler(variable: &str, default: &str) -> OsString {
    env::var_os(variable).unwrap_or_else(|| default.into())
}

fn is_there(program: &OsString) -> bool {
    Command::new(program).arg("--version").stdout(Stdio::null()).stderr(Stdio::null()).status().is_ok()
}

/// Says what a test left out. `eprintln!` would be heard only where the test fails.
fn left_out(what: &str) {
    let _ = writeln!(io::stderr(), "left out: {what}");
}

/// What a command prints, given these bytes. It must succeed and say nothing on the error output.
fn run_with(command: &mut Command, given: &[u8]) -> Vec<u8> {
    let spawned = command.stdin(Stdio::piped()).stdout(Stdio::piped()).stderr(Stdio::piped()).spawn();
    let mut child = spawned.unwrap_or_else(|error| panic!("{command:?}: {error}"));
    // All is read before anything is printed, and a program that fails at once need not read.
    let _ = child.stdin.take().unwrap().write_all(given);
    let output = child.wait_with_output().unwrap();
    let said = String::from_utf8_lossy(&output.stderr);
    assert!(output.status.success(), "{command:?}: {}\n{said}", output.status);
    assert!(said.is_empty(), "{command:?}:\n{said}");
    output.stdout
}

fn run(command: &mut Command) -> String {
    String::from_utf8(run_with(command, b"")).expect("UTF-8")
}

/// A program of tests/c with the pair, linked with the archive. A file of its own for each call: tests run at the same
/// time, and none may write what another runs.
fn compiled(name: &str, language: &[&str], more: &[&str], compiler: OsString) -> PathBuf {
    static CALLS: AtomicUsize = AtomicUsize::new(0);
    let program = made(&format!("{name}-{}", CALLS.fetch_add(1, Ordering::Relaxed)));
    run(Command::new(compiler)
        .args(language)
        .args(STRICT)
        .args(more)
        .arg("-I")
        .arg(host("../include"))
        .arg(host("tests/c").join(name).with_extension("c"))
        .arg(host("../include/pralakuon_record.c"))
        // What follows is no source, whatever the language.
        .args(["-x", "none", "-L", ARCHIVE, "-lpralakuon_c", "-o"])
        .arg(&program));
    program
}

fn in_c(name: &str) -> PathBuf {
    compiled(name, &C99, &[], compiler("CC", "cc"))
}

#[test]
fn the_tour_prints_what_it_should() {
    assert_eq!(run(&mut Command::new(in_c("tour"))), include_str!("c/tour.txt"));
}

#[test]
fn the_header_tells_the_archives_limits() {
    assert_eq!(run(&mut Command::new(in_c("limits"))), "the header tells the archive's limits\n");
}

#[test]
fn the_pair_keeps_its_edges() {
    assert_eq!(run(&mut Command::new(in_c("pair"))), "the pair keeps its edges\n");
}

#[test]
fn header_and_pair_are_cpp_too() {
    let cpp = compiler("CXX", "c++");
    if !is_there(&cpp) {
        return left_out("header and pair as C++11, no C++ compiler");
    }
    for name in ["limits", "pair"] {
        run(&mut Command::new(compiled(name, &CPP11, &[], cpp.clone())));
    }
}

#[test]
fn the_archive_needs_memcpy_and_memset_and_has_no_data() {
    if !is_there(&"nm".into()) || !is_there(&"size".into()) {
        return left_out("what the archive needs, no nm or size");
    }
    let archive = Path::new(ARCHIVE).join("libpralakuon_c.a");
    let symbols = run(Command::new("nm").arg(&archive));
    let of_kind = |kind: &str| -> BTreeSet<_> {
        symbols.lines().filter_map(|line| line.rsplit_once(kind)).map(|(_, name)| name.to_string()).collect()
    };
    assert_eq!(of_kind(" U "), BTreeSet::from(["memcpy", "memset"].map(String::from)));
    let entries = ["line", "session", "check", "timestamp", "builtin", "visible", "version"];
    assert_eq!(of_kind(" T "), BTreeSet::from(entries.map(|entry| format!("pralakuon_{entry}"))));
    // A row for each object: code and constants, data, data that is zero at first.
    let sizes = run(Command::new("size").arg(&archive));
    assert!(sizes.lines().count() > 1, "{sizes}");
    for row in sizes.lines().skip(1) {
        assert_eq!(row.split_whitespace().skip(1).take(2).collect::<Vec<_>>(), ["0", "0"], "{sizes}");
    }
}

fn has_sanitizers(cc: &OsString) -> bool {
    let source = made("nothing.c");
    fs::write(&source, "int main(void) { return 0; }\n").unwrap();
    let program = made("nothing");
    let built = Command::new(cc).args(SANITIZERS).arg(source).arg("-o").arg(&program).output().unwrap();
    built.status.success() && Command::new(program).output().map_or(false, |run| run.status.success())
}

#[test]
fn sanitizers_find_nothing() {
    let cc = compiler("CC", "cc");
    if !has_sanitizers(&cc) {
        return left_out("the C programs under sanitizers, the compiler has none");
    }
    for name in ["tour", "limits", "pair"] {
        run(&mut Command::new(compiled(name, &C99, &SANITIZERS, cc.clone())));
    }
}

/// A sheet of records at the edges of what the types can hold.
fn sheet_of_edges(heads: bool) -> Vec<u8> {
    let texts = [0, 1, 255, 256, 4_095, 4_096, 4_097].map(|bytes| "x".repeat(bytes));
    let mut writer = SheetWriter::with_heads(Settings::STRAIGHT_COLOUR, b"\xff{", heads).unwrap();
    for (i, text) in texts.iter().enumerate() {
        let mut record = Record::new(Level::ALL[i % 5], text);
        record.file = Some(&texts[i / 2]);
        record.timestamp = &texts[i / 3];
        record.head = heads.then(|| texts[i / 2].as_str());
        writer.push(&record).unwrap();
        let mut record = HostRecord::new(Level::ALL[i % 5], &texts[i / 2]);
        record.line = Some(0x0102_0304 << i);
        record.module_path = Some(text);
        writer.push(&record).unwrap();
    }
    writer.push(&Record::print("a print")).unwrap();
    writer.finish()
}

#[test]
fn the_pair_writes_what_the_crate_writes() {
    let program = in_c("pair");
    let sample = |name: &str| fs::read(host("../samples").join(name)).unwrap();
    let samples = ["wall", "wall-crate", "wall-straight", "mur", "strict", "wall-heads", "wall-places", "self-test"];
    let samples = samples.map(|name| sample(&format!("{name}.sheet")));
    for sheet in samples.into_iter().chain([sheet_of_edges(false), sheet_of_edges(true)]) {
        assert!(run_with(Command::new(&program).arg("copy"), &sheet) == sheet);
    }
}

#[test]
fn the_pair_says_what_the_crate_says() {
    let said = run(Command::new(in_c("pair")).arg("texts"));
    let text = |refusal: Refusal| refusal.to_string().split_once(": ").unwrap().1.to_string();
    // 10 is no longer given, and 16 not yet.
    let refusals = (1..=17).map(|number| Refusal::from_number(number).map_or("an unknown refusal".into(), text));
    let levels = Level::ALL.map(|level| level.to_string());
    let expected: Vec<_> = ["no refusal".to_string()].into_iter().chain(refusals).collect();
    assert_eq!(said.lines().take(18).collect::<Vec<_>>(), expected);
    assert_eq!(said.lines().skip(18).collect::<Vec<_>>(), [&["no level".to_string()], &levels[..]].concat());
}

fn install(folder: &str, prefix: &str, destdir: &Path) -> PathBuf {
    let _ = fs::remove_dir_all(made(folder));
    run(Command::new(host("install")).arg(prefix).env("DESTDIR", destdir).env("PRALAKUON_ARCHIVE", ARCHIVE));
    made(folder)
}

#[test]
fn an_installation_is_found_by_pkg_config() {
    let prefix = install("installed", made("installed").to_str().unwrap(), Path::new(""));
    let pkg_config = |what: &str| {
        let mut command = Command::new("pkg-config");
        run(command.args([what, "pralakuon"]).env("PKG_CONFIG_PATH", prefix.join("lib/pkgconfig")))
    };
    let program = made("installed-tour");
    run(Command::new(compiler("CC", "cc"))
        .args(pkg_config("--cflags").split_whitespace())
        .arg(host("tests/c/tour.c"))
        .args(pkg_config("--libs").split_whitespace())
        .arg("-o")
        .arg(&program));
    assert_eq!(run(&mut Command::new(program)), include_str!("c/tour.txt"));
    let header = include_str!("../../include/pralakuon.h");
    let version = pkg_config("--modversion");
    let part = |name: &str| header.split_once(&format!("PRALAKUON_VERSION_{name} ")).unwrap().1.lines().next().unwrap();
    assert_eq!(version.trim_end().split('.').collect::<Vec<_>>(), ["MAJOR", "MINOR", "PATCH"].map(part));
}

#[test]
fn an_installation_can_be_staged() {
    let staged = install("staged", "/opt/pralakuon", &made("staged")).join("opt/pralakuon");
    let names = |folder: &str| {
        let mut names: Vec<_> = fs::read_dir(staged.join(folder)).unwrap().map(|e| e.unwrap().file_name()).collect();
        names.sort();
        names
    };
    assert_eq!(names(""), ["include", "lib"]);
    assert_eq!(names("include"), ["pralakuon.h", "pralakuon_record.h"]);
    assert_eq!(names("lib"), ["libpralakuon_c.a", "libpralakuon_record.a", "pkgconfig"]);
    // The file speaks of where the installation will stand, not of where it was staged.
    let told = fs::read_to_string(staged.join("lib/pkgconfig/pralakuon.pc")).unwrap();
    assert!(told.starts_with("prefix=/opt/pralakuon\n"), "{told}");
    let archive = fs::read(Path::new(ARCHIVE).join("libpralakuon_c.a")).unwrap();
    assert!(fs::read(staged.join("lib/libpralakuon_c.a")).unwrap() == archive);
}

/// The script fails and says why in one line, which has these words.
fn script_refuses(name: &str, command: &mut Command, words: &str) {
    let output = command.output().unwrap();
    let said = String::from_utf8(output.stderr).unwrap();
    assert!(!output.status.success(), "{command:?}");
    assert!(said.starts_with(name) && said.contains(words) && said.lines().count() == 1, "{command:?}: {said}");
}

#[test]
fn an_installation_needs_an_absolute_prefix_and_an_archive() {
    let refused = |prefix: &str, archive: &str, words: &str| {
        let mut command = Command::new(host("install"));
        command.arg(prefix).env("PRALAKUON_ARCHIVE", archive).env("DESTDIR", made("nowhere"));
        script_refuses("host/install: ", &mut command, words);
        assert!(!made("nowhere").exists());
    };
    refused("usr", ARCHIVE, "absolute");
    refused("/a b", ARCHIVE, "absolute");
    refused("", ARCHIVE, "absolute");
    refused("/usr", "/nowhere", "PRALAKUON_ARCHIVE names /nowhere, which has no libpralakuon_c.a");

    // The head of an object for a processor that nobody has.
    let other = made("other");
    let _ = fs::remove_dir_all(&other);
    fs::create_dir_all(&other).unwrap();
    fs::write(other.join("a.o"), b"\x7fELF\x02\x01\x01\0\0\0\0\0\0\0\0\0\x01\0\xff\xff").unwrap();
    run(Command::new("ar").arg("rcS").arg(other.join("libpralakuon_c.a")).arg(other.join("a.o")));
    refused("/usr", other.to_str().unwrap(), "is for another machine than");
}

#[test]
fn an_archive_is_refused_to_machines_that_it_does_not_fit() {
    if !is_there(&"rt".into()) {
        return left_out("targets without an archive, no Rattle toolchain");
    }
    let refused = |triple: &str, words: &str| {
        script_refuses("host/archive: ", Command::new(host("archive")).args(["--target", triple]), words);
        assert!(!host("../target/archive").join(triple).exists());
    };
    refused("arm-none-eabi", "32-bit");
    refused("x86_64-linux-gnux32", "32-bit");
    refused("aarch64-linux-gnu_ilp32", "32-bit");
    refused("aarch64_be-none-elf", "big-endian");
    refused("x86_64-pc-windows-gnu", "neither ELF nor Mach-O");
    refused("nonsense", "does not know");
    refused("-x", "no triple");
}
