//! Cases of comparison reports (document 02, E10).

use super::cases::{full, saying, Maker};
use super::is_listed;
use crate::examples::reports::{COLOURED, PLAIN};
use crate::head;
use crate::ruling::{self, Names};
use crate::sheet::{Layout, Record, Sheet, COLOUR, HEADS, HOST, PLACES, STRAIGHT, STRICT};

const FAMILY: &str = "reports";

/// With parameters that are not for a layout, twice, and in groups that insert and pad, or do one of both.
const TEMPLATES: &[&str] = &[
    "[{L}] {s:bold:>90}|",
    "{s}{s:red}|",
    "{[{s}]%red}|",
    "{[{s}]%>60}|",
    "{{s}%bold%90}|",
    "{x{L:0}{y{s}%red%70}%bold%^0150}|",
    "{\x1b[{s}x%italic%60}|",
];

/// Overlaps, characters that share bytes, sequences in the head and in the values, backquotes, wide characters.
const MESSAGES: &[&str] = &[
    "assertion\n left: `12`\nright: `13`",
    "x\n left: `aaa`\nright: `aa`",
    "x\n left: `ab`\nright: `ba`",
    "x\n left: `abcabba`\nright: `cbabac`",
    "x\n left: `é`\nright: `ĩ`",
    "x\n left: `aéb`\nright: `aèb`",
    "x\n left: `èè`\nright: `èéè`",
    "x\n left: `éé温`\nright: `温渦é`",
    "x\n left: `温渦`\nright: `渦`",
    "\x1b[31mx\x1b[0my\n left: `a\x1b[0mb`\nright: `b\x1b[0mb`",
    "x\x1b[\n left: `\x1b[31m`\nright: `\x1b[32m`",
    "\n\n left: ``\nright: ```\n",
    "壁\r\n left: `12 ｶ`\r\nright: `13 ｶ`\r\n",
    " left: `1`\nright: `2`\n left: `right: `\nright: ` left: `",
    "x\n left: `\nright: `2`",
    "x\n left: `1`\nright: `2`\r",
    "x\nleft: `1`\nright: `2`",
    "x\n left: `1`\nright: `2",
];

/// How many of chance.
const BY_CHANCE: usize = 240;

impl Maker {
    pub(super) fn reports(&mut self) {
        for (template, message, ..) in PLAIN.iter().chain(COLOURED) {
            self.in_every_mode(template, saying(message));
        }
        for message in MESSAGES {
            for template in TEMPLATES {
                self.in_every_mode(template, saying(message));
            }
            self.in_every_mode("{s}", Record { level: 0, ..saying(message) });
            self.in_every_mode("{[{s:9}]%bold%60}|", Record { source: HOST, ..saying(message) });
        }
        self.reports_by_places();
        self.reports_at_limits();
        self.reports_by_chance();
    }

    /// Plain, in the crate's mode and in straight mode.
    fn in_every_mode(&mut self, template: &str, record: Record) {
        for settings in [0, COLOUR, COLOUR | STRAIGHT] {
            self.alike(FAMILY, settings, template, vec![record.clone()]);
        }
    }

    fn reports_by_places(&mut self) {
        for message in ["壁\n left: `温渦`\nright: `渦`", "x\n left: `ab`\nright: `b壁`"] {
            for template in ["{[{s}]%>60}|", "{[{s}]%bold%100}|"] {
                for settings in [0, COLOUR, COLOUR | STRAIGHT, HEADS | COLOUR] {
                    self.alike(FAMILY, settings | PLACES, template, vec![saying(message)]);
                }
            }
        }
    }

    /// In the strict edition, beside other records, and as long as a message may be.
    fn reports_at_limits(&mut self) {
        let report = Record { message: b"x\n left: `1`\nright: `2`".to_vec(), ..full() };
        let several = vec![report.clone(), full(), Record { level: 0, ..report.clone() }];
        for settings in [0, STRICT, HEADS, COLOUR, COLOUR | STRICT | HEADS] {
            self.alike(FAMILY, settings, "{t} {[{L}]%bold} {s}", several.clone());
        }
        for right in ["a".repeat(2000), "a".repeat(1999) + "b"] {
            let values = format!("\n left: `{}`\nright: `{right}`", "a".repeat(2000));
            let of_size = |size: usize| saying(&("x".repeat(size - values.len()) + &values));
            self.in_every_mode("{s}", of_size(4095));
            self.in_every_mode("{s}", of_size(4096));
            self.parted(11, FAMILY, "{s}", of_size(4097));
        }
    }

    fn reports_by_chance(&mut self) {
        let mut room = BY_CHANCE;
        while room > 0 {
            let depth = 1 + self.rng.below(3);
            let template = self.rng.template(depth);
            let layout = Layout::BOTH[self.rng.below(2)];
            let settings = [0, COLOUR, COLOUR | STRAIGHT, COLOUR | PLACES][self.rng.below(4)] | layout.bit();
            let record = Record { message: self.rng.report(), ..self.rng.record() };
            let sheet = Sheet { settings, template: template.into(), records: vec![record] };
            let ruled = ruling::template(&sheet.template, Names::All).is_ok();
            let right = ruling::record(&sheet.records[0], layout).is_none();
            if ruled && right && !is_listed(&sheet) && head::asked(&sheet).is_some() {
                room -= 1;
                self.put(0, true, FAMILY, sheet);
            }
        }
    }
}
