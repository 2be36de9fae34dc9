//! A place in a template, shown to a person: at its edges, and with what a terminal should not be given.

use pralakuon::{check, point_at, Refusal, Settings, SheetWriter};
use std::io::Write;
use std::path::Path;
use std::process::{Command, Stdio};

#[test]
fn the_caret_stands_under_the_place() {
    for (template, place, shown) in [
        ("{s} %{t}", 4, "{s} %{t}\n    ^"),
        ("{s} %{t}", 0, "{s} %{t}\n^"),
        ("{s} %{t}", 7, "{s} %{t}\n       ^"),
        ("{s}%", 3, "{s}%\n   ^"),
        // Behind the last byte, and beyond.
        ("{s}", 3, "{s}\n   ^"),
        ("{s}", 99, "{s}\n   ^"),
        ("{s}", usize::MAX, "{s}\n   ^"),
        ("", 0, "\n^"),
        ("", 7, "\n^"),
    ] {
        assert_eq!(point_at(template.as_bytes(), place), shown, "{template:?} {place}");
    }
    // Longer than any template that is read, and than what Rust's own formatter pads to.
    let long = "x".repeat(70_000);
    assert_eq!(point_at(long.as_bytes(), 69_999), format!("{long}\n{}^", " ".repeat(69_999)));
}

#[test]
fn only_the_line_of_the_place_is_shown() {
    let template = b"{L}\n{s x}\n\n{t}";
    for (place, shown) in [
        (0, "{L}\n^"),
        (2, "{L}\n  ^"),
        // A newline ends its line and is a part of it.
        (3, "{L}\n   ^"),
        (4, "{s x}\n^"),
        (6, "{s x}\n  ^"),
        (9, "{s x}\n     ^"),
        (10, "\n^"),
        (11, "{t}\n^"),
        (14, "{t}\n   ^"),
    ] {
        assert_eq!(point_at(template, place), shown, "{place}");
    }
    assert_eq!(point_at(b"{s}\n", 4), "\n^");
}

#[test]
fn every_character_has_one_column() {
    // Of two, three and four bytes.
    for letter in ["é", "値", "😀"] {
        let template = format!("{{{letter}{letter} {{s x}}}}");
        let place = 4 + 2 * letter.len();
        assert_eq!(template.as_bytes()[place], b' ');
        assert_eq!(point_at(template.as_bytes(), place), format!("{template}\n      ^"));
        // And one that is pointed into counts as begun.
        assert_eq!(point_at(template.as_bytes(), 1), format!("{template}\n ^"));
        assert_eq!(point_at(template.as_bytes(), 2), format!("{template}\n  ^"));
    }
}

#[test]
fn what_could_disturb_a_terminal_is_a_question_mark() {
    assert_eq!(point_at(b"\t{s\r}\0\x7f", 3), "?{s?}??\n   ^");
    assert_eq!(point_at(b"\x1b[31m{s x}", 7), "?[31m{s x}\n       ^");
    // Control characters beyond ASCII: some terminals take U+009B for byte 27 and `[`.
    assert_eq!(point_at("\u{9b}31m{s x}".as_bytes(), 8), "¿31m{s x}\n       ^");
    for control in (0..0x20).chain(0x7f..0xa0).filter_map(char::from_u32).filter(|&control| control != '\n') {
        let template = format!("{control}{{s x}}");
        let mark = if control.is_ascii() { '?' } else { '¿' };
        assert_eq!(point_at(template.as_bytes(), template.len() - 3), format!("{mark}{{s x}}\n   ^"), "{control:?}");
    }
    // 17 is never given for them, but any bytes may be shown.
    assert_eq!(point_at(b"\xff{s\xc3}", 3), "\u{fffd}{s\u{fffd}}\n   ^");
}

/// What `./run` says on its error output of a sheet with this template, read strictly, without what each line begins with.
fn said_by_the_program(template: &str) -> String {
    let sheet = SheetWriter::new(Settings::PLAIN.with_strict(true), template.as_bytes()).unwrap().finish();
    let program = Path::new(env!("CARGO_MANIFEST_DIR")).join("../run");
    let mut running = Command::new(program)
        .arg("-")
        .stdin(Stdio::piped())
        .stdout(Stdio::piped())
        .stderr(Stdio::piped())
        .spawn()
        .unwrap();
    running.stdin.take().unwrap().write_all(&sheet).unwrap();
    let output = running.wait_with_output().unwrap();
    assert_eq!((output.status.code(), &output.stdout[..]), (Some(1), &b"! 17\n"[..]), "{template:?}");
    let said = String::from_utf8(output.stderr).unwrap();
    said.lines().map(|line| line.strip_prefix("./run: ").unwrap().to_string() + "\n").collect()
}

/// The program shows what `point_at` shows: in one line and in several, beside characters of one to four bytes, and with
/// control characters before the place, behind it and at it.
#[test]
#[ignore = "needs the program, which ./run builds with the Rattle toolchain; host/test asks for it"]
fn the_program_shows_the_same() {
    for template in [
        "{s} %{t}",
        "{bold:[{L}]}{s}",
        "é→😀{L x}{s}",
        "{測定値 {L x}%bold} {s}\n",
        "{L}\n\té {s x}\r\n\n└─ {m} \x1b[0m\x7f",
        "{L}\n{s}\n%\n{t}",
        "{s\n}",
        "\0\t\x1f\x7f{s \x1b[31m}\0",
        "\u{80}\u{9f}\u{a0}à{s \u{9b}\u{bf}à}\u{85}",
        &("x".repeat(1_020) + "{s}%"),
        &("é".repeat(510) + "{s}%"),
        &("\n".repeat(1_020) + "{s}%"),
    ] {
        let place = match check(template.as_bytes(), Settings::PLAIN.with_strict(true)) {
            Err(Refusal::Dropped { place }) => place,
            other => panic!("{template:?} is not refused with 17: {other:?}"),
        };
        let reason =
            format!("the sheet is refused, 17: its template drops bytes or loses a parameter, first at byte {place}:");
        let shown = format!("{reason}\n{}\n", point_at(template.as_bytes(), place));
        assert_eq!(said_by_the_program(template), shown, "{template:?}");
    }
}
