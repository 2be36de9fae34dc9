//! The head's serial (document 02, E7), and the templates in which `d` is tried as a name.

use super::{info, line, Checks, Instead};
use crate::head::{self, StandIn};
use crate::judge::{self, Answer, Shown};
use crate::ruling::{self, Names};
use crate::sheet::{write_bodies, Layout, Record, Sheet, COLOUR, FILE, HEAD, HEADS, HOST, LINE, MODULE, STRICT};
use crate::strict;

/// Settings, mask, serial, template and line: INFO, message `hello`.
pub(crate) const SHOWN: &[(u8, u8, &str, &str, &str)] = &[
    (HEADS, HEAD, "H-07", "{d} {s}", "H-07 hello"),
    (HEADS, HEAD, "H-07", "{d:>6}|{s}", "  H-07|hello"),
    (HEADS, HEAD, "H-07", "{d:^09}|{s}", "00H-07000|hello"),
    (HEADS, HEAD, "H-07", "{head {d}%>12}|{s}", "   head H-07|hello"),
    // absent, and present and empty
    (HEADS, 0, "", "{d} {s}", "<head> hello"),
    (HEADS, 0, "", "{d:8}|{s}", "<head>  |hello"),
    (HEADS, HEAD, "", "{d} {s}", " hello"),
    (HEADS, HEAD, "", "{d:3}|{s}", "   |hello"),
    // an old record has none
    (0, 0, "", "{d} {s}", "<head> hello"),
    // no colour of its own
    (HEADS | COLOUR, HEAD, "H-07", "{d} {s}", "H-07 hello"),
    (HEADS | COLOUR, HEAD, "H-07", "{d:red:>6}|{s}", "\x1b[31m  H-07\x1b[0m|hello"),
    // not named
    (HEADS, HEAD, "H-07", "{s}", "hello"),
    (HEADS, FILE | LINE | MODULE | HEAD, "", "{s}", "hello"),
    (HEADS, HEAD, "12345678901234567890123456789012", "{s}", "hello"),
    (HEADS, HEAD, "12345678901234567890123456789012", "{d}{s}", "12345678901234567890123456789012hello"),
];

/// Settings, mask, serial and number: of a record by any template.
pub(crate) const REFUSED: &[(u8, u8, &[u8], u8)] = &[
    (0, HEAD, b"", 14),
    (0, FILE | HEAD, b"", 14),
    (0, 16, b"", 14),
    (HEADS, 16, b"", 14),
    (HEADS, 16 | HEAD, b"H-07", 14),
    (HEADS, 0, b"H", 14),
    (HEADS, 0, &[b'H'; 33], 14),
    (HEADS, HEAD, &[b'H'; 33], 11),
    (HEADS, HEAD, &[0xff; 33], 11),
    (HEADS, HEAD, b"\xff", 12),
    (HEADS, HEAD, b"H-\xc3", 12),
];

/// What the crate does with a template in which `d` is tried as a name, and what is due here: INFO, message `hello`.
pub(crate) const PARTED: &[(&str, Instead, Instead)] = &[
    // the name, where there is a group without a specifier
    ("{d}{s}", Instead::Refused(3), Instead::Line("<head>hello")),
    ("{x{d}{s}}", Instead::Refused(3), Instead::Line("x<head>hello")),
    ("{bold:d}{s}", Instead::Refused(3), Instead::Line("<head>hello")),
    ("{x{bold%d}{s}}", Instead::Refused(3), Instead::Line("x<head>hello")),
    ("{d}", Instead::Refused(3), Instead::Refused(4)),
    // the name and bytes that are dropped, where there is a group
    ("{d{s}}", Instead::Line("dhello"), Instead::Refused(4)),
    ("{d {s}}", Instead::Line("d hello"), Instead::Refused(4)),
    ("{x{d{s}}{L}}", Instead::Line("xdhelloINFO "), Instead::Refused(4)),
    ("{bold:d{s}}", Instead::Line("dhello"), Instead::Refused(4)),
    ("{d{L}}{s}", Instead::Line("dINFO hello"), Instead::Line("<head>hello")),
    // a specifier and a group
    ("{d:{s}}", Instead::Line("d:hello"), Instead::Refused(3)),
    ("{d:{L}}", Instead::Refused(4), Instead::Refused(3)),
    // a second specifier, where there are dropped bytes
    ("{{s:d}}", Instead::Line("hello"), Instead::Refused(3)),
    ("{x{s:d}}", Instead::Line("xhello"), Instead::Refused(3)),
    ("{x{L:d}}", Instead::Refused(4), Instead::Refused(3)),
    // nothing is met behind the name
    ("{d%513}{s}", Instead::Refused(3), Instead::Line("<head>hello")),
    ("{d{{{{{{{{}}}}}}}}}{s}", Instead::Refused(3), Instead::Line("<head>hello")),
];

/// The same where no other name can stand in for `d`, which is text in the end: two specifiers are given back.
pub(crate) const GIVEN_BACK: &[(&str, Instead, Instead)] = &[
    ("{{L:d{s}}{L}}", Instead::Refused(4), Instead::Line("L:dhelloINFO ")),
    ("{{L:d{L}}{s}}", Instead::Line("INFO hello"), Instead::Line("L:dINFO hello")),
];

/// The same where a limit is met behind the name.
pub(crate) const LIMITS: &[(&str, Instead, u8)] = &[
    ("{d:513}{s}", Instead::Refused(3), 7),
    ("{d:513{s}}", Instead::Line("d:513hello"), 7),
    ("{d}{\\", Instead::Refused(3), 9),
];

/// Templates that name `{d}`: the line without a serial, and where the strict edition refuses the template with 17.
pub(crate) const STRICTLY: &[(&str, &str, Option<usize>)] = &[
    ("{d}{s}", "<head>hello", None),
    ("{[{d:9}]%bold}{s}", "[<head>   ]hello", None),
    ("{d x}{s}", "<head>hello", Some(2)),
    ("{s}{d{L}}", "hello<head>", Some(5)),
    ("{bold:[{d}]}{s}", "[<head>]hello", Some(1)),
    ("{[{d%bold}]}{s}", "[<head>]hello", Some(5)),
];

pub(crate) fn measured(mask: u8, serial: &[u8]) -> Record {
    Record { mask, head: serial.to_vec(), ..info() }
}

impl Checks {
    pub(super) fn heads(&mut self) {
        for (settings, mask, serial, template, expected) in SHOWN {
            self.printed(*settings, template, measured(*mask, serial.as_bytes()), line(expected));
        }
        for (settings, mask, serial, number) in REFUSED {
            for level in [3, 0] {
                self.ruled(*settings, "{s}", Record { level, ..measured(*mask, serial) }, refused(*number));
            }
        }
        for (template, there, here) in PARTED {
            self.ask(0, template, &info(), there.answer());
            self.printed(0, template, info(), here.answer());
        }
        for (template, there, here) in GIVEN_BACK {
            self.ask(0, template, &info(), there.answer());
            self.ruled(0, template, info(), here.answer());
        }
        for (template, there, number) in LIMITS {
            self.ask(0, template, &info(), there.answer());
            self.ruled(0, template, info(), Answer::Refused(*number));
        }
        for (template, expected, place) in STRICTLY {
            self.printed(0, template, info(), line(expected));
            self.ruled(STRICT, template, info(), place.map_or(line(expected), |_| Answer::Refused(17)));
            self.placed(template, *place);
        }
        self.order_of_heads();
        self.layouts();
    }

    /// The ruling's answer.
    fn ruled(&mut self, settings: u8, template: &str, record: Record, expected: Answer) {
        let sheet = Sheet { settings, template: template.into(), records: vec![record] };
        self.same(template, expected.printed(), ruling::printed(&sheet.write()));
    }

    /// The ruling's answer, and the crate's with a stand-in for `d`.
    fn printed(&mut self, settings: u8, template: &str, record: Record, expected: Answer) {
        let sheet = Sheet { settings, template: template.into(), records: vec![record] };
        let asked = head::asked(&sheet).expect("a stand-in for `d`");
        self.same(template, &expected, &judge::answer_alone(&asked));
        self.same(template, expected.printed(), ruling::printed(&sheet.write()));
    }

    /// The ruled place, and that the crate bears it out with a stand-in for `d`.
    fn placed(&mut self, template: &str, place: Option<usize>) {
        let other = StandIn::File.put_in(template);
        let read =
            |template: &str, names| ruling::template(template.as_bytes(), names).expect("read in the first edition");
        let (ours, theirs) = (read(template, Names::All), read(&other, Names::Crates));
        self.same(template, place, ours.unused.place());
        self.same(template, theirs.unused.clone(), ours.unused);
        self.same(&other, Ok(()), strict::judged(&other, &theirs));
    }

    /// "Its 11 and 12 come after the message's"; and a host's serial shows, where a print's does not.
    fn order_of_heads(&mut self) {
        for serial in [&[b'H'; 33][..], b"\xff"] {
            for (message, number) in [(&b"\xff"[..], 12), (&[b'm'; 4097], 11)] {
                let record = Record { message: message.to_vec(), ..measured(HEAD, serial) };
                self.ruled(HEADS, "{s}", record, refused(number));
            }
        }
        let known = measured(HEAD, b"H-07");
        self.printed(HEADS, "{d} {s}", Record { source: HOST, ..known.clone() }, line("H-07 hello"));
        self.printed(HEADS, "{d} {s}", Record { level: 0, ..known }, line("hello"));
    }

    /// A record of either layout is of a wrong size in the other, and that comes before whatever is wrong with the template.
    fn layouts(&mut self) {
        for (settings, template, record, expected) in [
            (0, "{d} {s}", info().write(Layout::Old), line("<head> hello")),
            (0, "{", info().write(Layout::New), Answer::Refused(15)),
            (HEADS, "{", info().write(Layout::Old), Answer::Refused(15)),
            (HEADS, "{d} {s}", info().write(Layout::New), line("<head> hello")),
            (HEADS, "{s}", vec![0; 15], Answer::Refused(15)),
            (HEADS, "{s}", vec![0; 16], Answer::Refused(15)),
            (HEADS, "{s}", vec![0; 17], line("")),
        ] {
            let sheet = write_bodies(&[[&[settings], template.as_bytes()].concat(), record]);
            self.same("a record in a layout", expected.printed(), ruling::printed(&sheet));
        }
    }
}

/// Of one record.
fn refused(number: u8) -> Answer {
    Answer::Read(vec![Shown::Impossible(number)])
}
