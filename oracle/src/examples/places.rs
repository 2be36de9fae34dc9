//! The places rule (document 02, E14).

use super::{info, line, Checks};
use crate::judge;
use crate::places;
use crate::ruling;
use crate::sheet::{Record, Sheet, COLOUR, PLACES, STRAIGHT};

/// Settings, template, message and line: INFO.
pub(crate) const SHOWN: &[(u8, &str, &str, &str)] = &[
    // the crate's rule, and this one
    (0, "{s:6}|", "壁B3", "壁B3   |"),
    (PLACES, "{s:6}|", "壁B3", "壁B3  |"),
    (PLACES, "{s:^7}|", "壁", "  壁   |"),
    // halfwidth, fullwidth, a mark that most screens give no place
    (PLACES, "{s:07}|", "ｶ", "ｶ000000|"),
    (PLACES, "{s:4}|", "Ａ", "Ａ  |"),
    (PLACES, "{s:4}|", "\u{3099}", "\u{3099}  |"),
    // more places than the width: nothing is due, and nothing is cut
    (PLACES, "{s:2}|", "壁壁", "壁壁|"),
    (PLACES, "{s:3}|", "壁壁", "壁壁|"),
    // places and bytes inserted after a reset: five due, four inserted
    (PLACES | COLOUR, "{[{s:red}]%bold%9}|", "壁", "\x1b[1m[\x1b[31m壁\x1b[0m\x1b[1m] \x1b[0m|"),
    (PLACES | COLOUR | STRAIGHT, "{[{s:red}]%bold%9}|", "壁", "\x1b[1m[\x1b[31m壁\x1b[0m\x1b[1m]     \x1b[0m|"),
    // narrow: a mark of no width, a regional indicator, an ambiguous arrow
    (PLACES, "{s:4}|", "e\u{301}", "e\u{301}  |"),
    (PLACES, "{s:4}|", "\u{1f1ef}", "\u{1f1ef}   |"),
    (PLACES, "{s:4}|", "→", "→   |"),
    // a wide character of four bytes, an unassigned one, and one on either side of a sequence
    (PLACES, "{s:>5}|", "😀", "   😀|"),
    (PLACES, "{s:>5}|", "\u{2fffd}", "   \u{2fffd}|"),
    (PLACES, "{s:6}|", "壁\x1b[0m壁", "壁\x1b[0m壁  |"),
    // texts of a template, and a group in a group
    (PLACES, "{壁{s}%<6}|", "B3", "壁B3  |"),
    (PLACES, "{壁{s:4}{[{L:0}]%^8}%>16}|", "の", "  壁の   [INFO] |"),
];

impl Checks {
    /// What is ruled, and the crate's line with every wide character twice. The crate has no straight mode.
    pub(super) fn places(&mut self) {
        for (settings, template, message, expected) in SHOWN {
            let record = Record { message: message.as_bytes().to_vec(), ..info() };
            let sheet = Sheet { settings: *settings, template: (*template).into(), records: vec![record] };
            let due = (*expected).to_string() + "\n";
            self.same(template, due.into_bytes(), ruling::printed(&sheet.write()));
            if settings & STRAIGHT == 0 {
                let answer = judge::answer_alone(&places::asked(&sheet));
                self.same(template, line(expected), places::answered(&sheet, answer));
            }
        }
    }
}
