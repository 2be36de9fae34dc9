//! The crate over a stand-in for the archive, of which version and answers can be chosen. tests/version.rs compiles and
//! runs it.

use pralakuon::*;
use std::sync::atomic::{AtomicU64, Ordering::SeqCst};

static VERSION: AtomicU64 = AtomicU64::new(0);
static ANSWER: AtomicU64 = AtomicU64::new(0);
static CALLS: AtomicU64 = AtomicU64::new(0);

#[no_mangle]
extern "C" fn pralakuon_version() -> u64 {
    VERSION.load(SeqCst) << 8
}

/// An entry that counts its calls and answers what is chosen.
macro_rules! entry {
    ($name:ident, $($taken:ty),*) => {
        #[no_mangle]
        extern "C" fn $name($(_: $taken),*) -> u64 {
            CALLS.fetch_add(1, SeqCst);
            ANSWER.load(SeqCst)
        }
    };
}

entry!(pralakuon_line, *const u8, usize, u8, *const u8, usize, *mut u8, usize);
entry!(pralakuon_session, *const u8, usize, *mut u8, usize);
entry!(pralakuon_check, *const u8, usize, u8);
entry!(pralakuon_timestamp, *const u8, usize, u8);
entry!(pralakuon_builtin, u8, u8, u8, u8, *mut u8, usize);
entry!(pralakuon_visible, *const u8, usize, *mut u8, usize);

fn choose(version: Version, answer: u64) {
    VERSION.store(u64::from(version.major << 16 | version.minor << 8 | version.patch), SeqCst);
    ANSWER.store(answer, SeqCst);
    CALLS.store(0, SeqCst);
}

/// What was made while the archive was right.
struct Made {
    formatter: Formatter,
    host: HostFormatter,
    bytes: Vec<u8>,
}

fn made() -> Made {
    choose(Version::HOST, 0);
    let config = FormatterConfig::custom("{s}");
    let mut writer = SheetWriter::new(Settings::PLAIN, b"{s}").unwrap();
    writer.push(RawRecord::new()).unwrap();
    Made {
        formatter: Formatter::new(config).unwrap(),
        host: HostFormatter::new(config).unwrap(),
        bytes: writer.finish(),
    }
}

fn inside(error: std::io::Error) -> Refusal {
    *error.get_ref().and_then(|inner| inner.downcast_ref()).expect("a refusal inside")
}

/// Every function that calls an entry, and what it answers now.
fn answers(made: &Made, sheet: &Sheet) -> Vec<(&'static str, Refusal)> {
    let (device, host) = (Record::print("hello"), HostRecord::new(Level::Info, "hello"));
    let (mut text, mut bytes, mut out) = (String::new(), Vec::new(), [0; 9]);
    vec![
        ("check", check(b"{s}", Settings::PLAIN).unwrap_err()),
        ("names_timestamp", names_timestamp(b"{s}", Settings::PLAIN).unwrap_err()),
        ("line", line(b"{s}", Settings::PLAIN, &device, &mut out).unwrap_err()),
        ("session", session(&made.bytes).unwrap_err()),
        ("session_into", session_into(&made.bytes, &mut out).unwrap_err()),
        ("Sheet::read", Sheet::read(&made.bytes).unwrap_err()),
        ("Sheet::lines", sheet.lines().next().expect("a record").unwrap_err()),
        ("visible", visible(b"hello").unwrap_err()),
        ("visible_str", visible_str("hello").unwrap_err()),
        ("visible_into", visible_into(b"hello", &mut out).unwrap_err()),
        ("Formatter::new", Formatter::new(FormatterConfig::custom("{s}")).unwrap_err()),
        ("Formatter::new, built in", Formatter::new(FormatterConfig::default()).unwrap_err()),
        ("Formatter::format", made.formatter.format(&device).unwrap_err()),
        ("Formatter::format_into", made.formatter.format_into(&device, &mut out).unwrap_err()),
        ("Formatter::append", made.formatter.append(&device, &mut text).unwrap_err()),
        ("Formatter::write_line", inside(made.formatter.write_line(&device, &mut bytes).unwrap_err())),
        ("HostFormatter::new", HostFormatter::new(FormatterConfig::custom("{s}")).unwrap_err()),
        ("HostFormatter::new, built in", HostFormatter::new(FormatterConfig::default()).unwrap_err()),
        ("HostFormatter::format", made.host.format(&host).unwrap_err()),
        ("HostFormatter::format_into", made.host.format_into(&host, &mut out).unwrap_err()),
        ("HostFormatter::append", made.host.append(&host, &mut text).unwrap_err()),
        ("HostFormatter::write_line", inside(made.host.write_line(&host, &mut bytes).unwrap_err())),
    ]
}

fn main() {
    let made = made();
    let sheet = Sheet::read(&made.bytes).unwrap();
    let Version { major, minor, patch } = Version::HOST;

    // Of the same major and minor number: it is called, and a number that nobody knows is handed on.
    choose(Version { patch: patch + 7, ..Version::HOST }, 77);
    let answers_now = answers(&made, &sheet);
    assert_eq!(CALLS.load(SeqCst), answers_now.len() as u64);
    for (function, refusal) in answers_now {
        assert_eq!(refusal, Refusal::Unknown { number: 77 }, "{function}");
    }

    // Of another: no entry but that of the version is called.
    for archive in [Version { minor: minor + 1, ..Version::HOST }, Version { major: major + 1, ..Version::HOST }] {
        choose(archive, 0);
        for (function, refusal) in answers(&made, &sheet) {
            assert_eq!(refusal, Refusal::OtherVersion { archive }, "{function}");
        }
        assert_eq!(CALLS.load(SeqCst), 0);
        assert_eq!(archive_version(), archive);
    }
}
