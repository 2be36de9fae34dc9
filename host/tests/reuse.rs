//! Lines into what is used again and again: a text, a writer, the room that a thread keeps.

use pralakuon::{Formatter, FormatterConfig, HostFormatter, HostRecord, Level, Record, Refusal};
use std::cell::RefCell;
use std::io::{self, Write};

fn device() -> Formatter {
    Formatter::new(FormatterConfig::custom("[{L}] {s}")).unwrap()
}

fn host() -> HostFormatter {
    HostFormatter::new(FormatterConfig::custom("[{L}] {s}")).unwrap()
}

#[test]
fn a_line_is_put_at_the_end_of_a_text() {
    let mut text = "été ".to_string();
    device().append(&Record::new(Level::Info, "hello"), &mut text).unwrap();
    host().append(&HostRecord::new(Level::Warn, "à côté"), &mut text).unwrap();
    assert_eq!(text, "été [INFO ] hello[WARN ] à côté");
}

#[test]
fn a_refusal_leaves_the_text_as_it_was() {
    let long = "x".repeat(4_097);
    let mut text = "before".to_string();
    assert_eq!(device().append(&Record::new(Level::Info, &long), &mut text), Err(Refusal::FieldTooLong));
    assert_eq!(host().append(&HostRecord::new(Level::Info, &long), &mut text), Err(Refusal::FieldTooLong));
    assert_eq!(text, "before");
}

#[test]
fn a_text_that_is_used_again_keeps_its_memory() {
    let mut text = String::with_capacity(5_000);
    let before = text.as_ptr();
    for length in [4_096, 0, 300, 4_000] {
        text.clear();
        let message = "m".repeat(length);
        device().append(&Record::new(Level::Info, &message), &mut text).unwrap();
        assert_eq!(text, format!("[INFO ] {message}"));
    }
    assert_eq!(text.as_ptr(), before);
}

/// What was written, piece by piece.
#[derive(Default)]
struct Pieces(Vec<Vec<u8>>);

impl Write for Pieces {
    fn write(&mut self, piece: &[u8]) -> io::Result<usize> {
        self.0.push(piece.to_vec());
        Ok(piece.len())
    }

    fn flush(&mut self) -> io::Result<()> {
        Ok(())
    }
}

#[test]
fn a_line_and_its_newline_are_one_piece() {
    let mut pieces = Pieces::default();
    let mut expected = Vec::new();
    // Shorter and longer ones in turn: what an earlier line left in the thread's room is not written again.
    for length in [300, 5, 248, 247, 249, 4_096, 0, 70] {
        let message = "m".repeat(length);
        device().write_line(&Record::new(Level::Info, &message), &mut pieces).unwrap();
        host().write_line(&HostRecord::new(Level::Info, &message), &mut pieces as &mut dyn Write).unwrap();
        let line = format!("[INFO ] {message}\n").into_bytes();
        expected.extend([line.clone(), line]);
    }
    assert_eq!(pieces.0, expected);
}

#[test]
fn a_refusal_writes_nothing_and_is_inside_the_error() {
    let long = "x".repeat(4_097);
    let mut pieces = Pieces::default();
    let errors = [
        device().write_line(&Record::new(Level::Info, &long), &mut pieces).unwrap_err(),
        host().write_line(&HostRecord::new(Level::Info, &long), &mut pieces).unwrap_err(),
    ];
    for error in errors {
        assert_eq!(error.kind(), io::ErrorKind::InvalidData);
        assert_eq!(error.get_ref().and_then(|inner| inner.downcast_ref()), Some(&Refusal::FieldTooLong));
    }
    assert!(pieces.0.is_empty());
}

/// A writer that fails, as one to a full disk does.
struct Failing;

impl Write for Failing {
    fn write(&mut self, _: &[u8]) -> io::Result<usize> {
        Err(io::Error::new(io::ErrorKind::Other, "the disk is full"))
    }

    fn flush(&mut self) -> io::Result<()> {
        Ok(())
    }
}

#[test]
fn what_the_writer_fails_with_is_handed_on() {
    let error = device().write_line(&Record::new(Level::Info, "hello"), &mut Failing).unwrap_err();
    assert_eq!((error.kind(), error.to_string().as_str()), (io::ErrorKind::Other, "the disk is full"));
    // And the next line is whole.
    assert_eq!(device().format(&Record::new(Level::Info, "hello")).as_deref(), Ok("[INFO ] hello"));
}

/// A writer that logs each piece itself, as one over a network may.
struct Logging(Vec<String>);

impl Write for Logging {
    fn write(&mut self, piece: &[u8]) -> io::Result<usize> {
        let told = format!("{} bytes", piece.len());
        self.0.push(host().format(&HostRecord::new(Level::Debug, &told)).unwrap());
        self.0.push(String::from_utf8(piece.to_vec()).unwrap());
        Ok(piece.len())
    }

    fn flush(&mut self) -> io::Result<()> {
        Ok(())
    }
}

#[test]
fn a_writer_may_make_lines_itself() {
    let mut logging = Logging(Vec::new());
    device().write_line(&Record::new(Level::Info, "hello"), &mut logging).unwrap();
    assert_eq!(logging.0, ["[DEBUG] 14 bytes", "[INFO ] hello\n"]);
}

/// Makes lines when its thread ends, in whatever order what threads keep is dropped.
struct Last(RefCell<Option<std::sync::mpsc::Sender<String>>>);

impl Drop for Last {
    fn drop(&mut self) {
        let line = device().format(&Record::new(Level::Info, "the thread ends")).unwrap();
        self.0.borrow().as_ref().expect("a sender").send(line).unwrap();
    }
}

thread_local!(static LAST: Last = const { Last(RefCell::new(None)) });

#[test]
fn a_thread_that_ends_may_still_make_lines() {
    let (sender, lines) = std::sync::mpsc::channel();
    for before in [false, true] {
        let sender = sender.clone();
        // The thread's room may be made before the last words are registered, or after.
        std::thread::spawn(move || {
            let line = || device().format(&Record::new(Level::Info, "hello")).unwrap();
            before.then(line);
            LAST.with(|last| *last.0.borrow_mut() = Some(sender));
            line();
        })
        .join()
        .unwrap();
    }
    assert_eq!(lines.try_iter().collect::<Vec<_>>(), ["[INFO ] the thread ends"; 2]);
}
