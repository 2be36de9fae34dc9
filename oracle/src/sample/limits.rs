//! Cases on both sides of each limit in document 01's table.

use super::cases::{info, saying, Maker};
use crate::sheet::{Record, COLOUR, FILE, MODULE};

const BROKEN_TEMPLATES: &[&[u8]] = &[
    b"\xff{s}",
    b"{s}\x80",
    b"{s}\xc3",
    b"{s}\xc3(",
    b"\xc0\x80{s}",
    b"\xc1\xbf{s}",
    b"\xe0\x9f\xbf{s}",
    b"\xed\xa0\x80{s}",
    b"\xf0\x8f\xbf\xbf{s}",
    b"\xf4\x90\x80\x80{s}",
    b"\xf5\x80\x80\x80{s}",
    b"{s}\xe2\x86",
    b"{s\xff}",
    b"{s}\xf0\x9f\xa6",
];

const BROKEN_FIELDS: &[&[u8]] = &[b"\xff", b"a\x80", b"\xc3", b"\xed\xa0\x80", b"\xf4\x90\x80\x80", b"ok\xe2\x86"];

/// Before and behind a width that is read, whatever else is wrong there.
const WIDTH_PLACES: &[(&str, &str)] = &[
    ("{s:", "}|"),
    ("{[{s}]%", "}|"),
    ("{x{s:", "}}"),
    ("{", "}"),
    ("{", "}{s}"),
    ("{", "{s}}"),
    ("{s:bold:bold:", "}"),
    ("{x{red:red:", "}}"),
    ("{x{L%", "}}{s}"),
    ("{s:5:", "}"),
    ("{red:", ":{L}x}{s}"),
];

/// Digits that are not read as a width.
const NO_WIDTHS: &[&str] =
    &["513{s}", "{s 513}", "{s513}", "{x513{s}}", "{513{s}", "{s}%513", "{x{s:bold513}}", "{s%513}", "{[{s}]513}"];

/// A search meets a backslash as the last byte of its text.
const BACKSLASH_LAST: &[&str] = &[
    "{s\\",
    "{\\",
    "{s}{\\",
    "{s}{x\\",
    "{s}{{\\",
    "{s}{{t}\\",
    "{s}{\\\\\\",
    "{s}{é\\",
    "x{s\\",
    "{s}{t:\\",
    "{s}{\\{\\",
];

const BACKSLASH_ELSEWHERE: &[&str] = &[
    "{s}\\",
    "{s}{t}\\",
    "{s}{\\\\",
    "{s}{x\\}",
    "{s}{\\é",
    "{s}\\{",
    "{s}\\\\",
    "{s\\}",
    "{s\\}}",
    "{x{s}\\}}",
    "{s}%\\",
    "{x{s}\\\\}",
    "\\{s}",
    "{[{s}\\{]%red}",
    "{s}{x\\{t}",
];

impl Maker {
    /// 1 and 2: size of the template, then UTF-8.
    pub(super) fn template_limits(&mut self) {
        let family = "limit of size";
        let long = |bytes: usize| "x".repeat(bytes - 3) + "{s}";
        let wide = |bytes: usize| format!("{{s}} {}", "é".repeat((bytes - 4) / 2));
        self.alike(family, 0, &long(1024), vec![info()]);
        self.alike(family, COLOUR, &wide(1024), vec![info()]);
        self.alike(family, 0, &("{".repeat(8) + &"x".repeat(1016)), vec![info()]);
        for template in [long(1025), wide(1026), long(2000), "x".repeat(1025), "{}".to_string() + &long(1024)] {
            self.parted(1, family, template, info());
        }
        self.parted(1, family, [long(1024).as_bytes(), &[0xff]].concat(), info());
        for template in BROKEN_TEMPLATES {
            self.parted(2, "limit of UTF-8", template, info());
        }
    }

    /// 7: a width above 512.
    pub(super) fn width_limits(&mut self) {
        let family = "limit of width";
        let zeros = "0".repeat(30);
        for width in ["511", "512", "<512", "^0512", ">512", &format!("{zeros}512"), &format!(">{zeros}7"), &zeros] {
            for (before, after) in [("{s:", "}|"), ("{[{s}]%", "}|"), ("{L:", "}{s}"), ("{x{s:", "}}")] {
                self.alike(family, COLOUR, &format!("{before}{width}{after}"), vec![info()]);
            }
        }
        let most = u64::MAX.to_string();
        let beyond = (u128::from(u64::MAX) + 1).to_string();
        let nines = "9".repeat(25);
        let zeros = format!("{zeros}513");
        for width in ["513", "<513", "^0513", "1000", "65536", &most, &beyond, &nines, &zeros] {
            for (before, after) in WIDTH_PLACES {
                self.parted(7, family, format!("{before}{width}{after}"), info());
            }
        }
        for template in NO_WIDTHS {
            self.alike(family, 0, template, vec![info()]);
        }
    }

    /// 8: a name of more than 255 `f`, and places where such a run is no name.
    pub(super) fn file_name_limits(&mut self) {
        let family = "limit of f";
        let record = Record { mask: FILE, file: b"x/y".to_vec(), ..info() };
        for count in [254, 255] {
            let many = "f".repeat(count);
            self.alike(family, 0, &format!("{{{many}}}{{s}}"), vec![record.clone()]);
            self.alike(family, COLOUR, &format!("{{x{{{many}:red}}}}{{s}}"), vec![record.clone()]);
        }
        for count in [256, 257, 300, 512] {
            let many = "f".repeat(count);
            for (before, after) in
                [("{", "}{s}"), ("{x{", "}}{s}"), ("{bold:", "}{s}"), ("{L:", "}{s}"), ("{", ":9}{s}")]
            {
                self.parted(8, family, format!("{before}{many}{after}"), record.clone());
            }
            for (before, after) in [("{[{s}]%", "}"), ("{s} ", ""), ("{", "x}{s}"), ("{s ", "}")] {
                self.alike(family, 0, &format!("{before}{many}{after}"), vec![record.clone()]);
            }
        }
    }

    /// 9: a backslash at the end.
    pub(super) fn backslash_limits(&mut self) {
        for template in BACKSLASH_LAST {
            self.parted(9, "limit of backslash", template, info());
        }
        for template in BACKSLASH_ELSEWHERE {
            self.alike("limit of backslash", 0, template, vec![info()]);
        }
    }

    /// 5: the 65th segment.
    pub(super) fn segment_limits(&mut self) {
        let family = "limit of segments";
        for count in [63, 64, 65, 66, 100] {
            let templates = [
                "{l:1}".repeat(count - 1) + "{s}",
                "{s}".repeat(count),
                "x{s}".repeat(count / 2) + &"x".repeat(count % 2),
                format!("{{{}}}{{s}}", "{L:0}".repeat(count - 2)),
                format!("{{{}%bold}}", "-{s}".repeat((count - 1) / 2)) + &"{s}".repeat((count - 1) % 2),
                "{:{s}}".repeat(count / 3) + &"{s}".repeat(count % 3),
            ];
            for template in templates {
                if count <= 64 {
                    self.alike(family, COLOUR, &template, vec![saying("m")]);
                } else {
                    self.parted(5, family, template, saying("m"));
                }
            }
        }
        // The 65th is never made: nothing follows, or what follows fails first.
        for (count, after) in [(64, "{}"), (63, "{x}"), (64, "%x"), (64, "{x"), (64, "{bold}"), (62, "{x{L}%x}{s}")] {
            self.alike(family, 0, &("{s}".repeat(count) + after), vec![info()]);
        }
        // It is made before the failure is met.
        for after in ["{x}", "x", "{x{L}%x}"] {
            self.parted(5, family, "{s}".repeat(64) + after, info());
        }
    }

    /// 6: the ninth brace in a brace.
    pub(super) fn depth_limits(&mut self) {
        let family = "limit of depth";
        for depth in 7..12 {
            let full = "{a{L:1}".repeat(depth - 1) + "{s}" + &"%bold}".repeat(depth - 1);
            let bare = "{".repeat(depth) + &"}".repeat(depth);
            let open = "{".repeat(depth + 1) + &"}".repeat(depth);
            for template in [full, bare.clone(), format!("{{s}}{bare}")] {
                if depth <= 8 {
                    self.alike(family, COLOUR, &template, vec![info()]);
                } else {
                    self.parted(6, family, template, info());
                }
            }
            self.alike(family, 0, &open, vec![info()]);
            self.alike(family, 0, &format!("{{s}}{open}"), vec![info()]);
        }
    }

    /// 11 and 12: size of a field, then UTF-8, shown or not; and the longest line of the program.
    pub(super) fn field_limits(&mut self) {
        let family = "limit of a field";
        for field in 0..4 {
            let template = if field == 3 { "{s:512}" } else { "{L}{s}" };
            for source in 0..2 {
                let of_size = |size: usize| Record { source, ..with_field(field, &vec![b'm'; size]) };
                self.alike(family, 0, template, vec![of_size(4096)]);
                self.parted(11, family, "{s}", of_size(4097));
            }
            let without_level = Record { level: 0, ..with_field(field, &[b'm'; 4097]) };
            self.parted(11, family, "{s}", without_level);
            self.alike(family, 0, template, vec![with_field(field, "é".repeat(2048).as_bytes())]);
            self.parted(11, family, "{s}", with_field(field, &[0xff; 4097]));
            for bytes in BROKEN_FIELDS {
                self.parted(12, "limit of UTF-8", "{s}", with_field(field, bytes));
            }
        }
        self.alike("limit of a line", 0, &"{s}".repeat(16), vec![with_field(3, &[b'm'; 4096])]);
    }
}

/// A record with one field as given: file, module, timestamp, message in turn.
fn with_field(field: usize, bytes: &[u8]) -> Record {
    let mut record = Record { mask: FILE | MODULE, file: b"a".to_vec(), ..info() };
    let fields = [&mut record.file, &mut record.module, &mut record.timestamp, &mut record.message];
    *fields.into_iter().nth(field).expect("one of four") = bytes.to_vec();
    record
}
