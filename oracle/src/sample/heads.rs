//! Cases of the head's serial (document 02, E7): records of both layouts, and `d` where it is tried as a name.

use super::cases::{info, Maker};
use super::is_listed;
use super::random::SERIALS;
use crate::examples::heads::{measured, LIMITS, PARTED, REFUSED, SHOWN, STRICTLY};
use crate::head;
use crate::ruling::{self, Names};
use crate::sheet::{Layout, Record, Sheet, COLOUR, HEAD, HEADS, HOST};

const FAMILY: &str = "heads";

/// The serial by itself, padded, coloured, in a group, and beside what is shown alike.
const TEMPLATES: &[&str] = &[
    "{d} {s}",
    "{d:>12}|{s}",
    "{d:^040:red}|{s}",
    "{[{d}]%bold%<40}|{s}",
    "{\x1b[{d:>02}x%italic%9}|{s}",
    "{x{d:9:underline}{L}%dimmed}|{m}|{s}",
    "{f}:{l} {d}{d:3} {s}",
    "{t} [{L}] {s}",
];

/// Templates in which `d` decides nothing, in either edition.
const UNCHANGED: &[&str] = &["{s d}", "{s} d", "{dd {s}}", "d:{s}", "{s}%d", "{[{s}]%d}", "{dé}{s}", "{s:dimmed}"];

/// What a message is refused with, before the serial is looked at.
const MESSAGES: &[(&[u8], u8)] = &[(b"\xff", 12), (&[b'm'; 4097], 11)];

impl Maker {
    pub(super) fn heads(&mut self) {
        for (settings, mask, serial, template, _) in SHOWN {
            self.shown(*settings, template, measured(*mask, serial.as_bytes()));
        }
        for template in TEMPLATES {
            self.shown(0, template, info());
            for serial in SERIALS {
                self.shown(HEADS, template, measured(HEAD, serial.as_bytes()));
            }
        }
        self.refused_heads();
        let parted = PARTED.iter().map(|e| e.0).chain(STRICTLY.iter().map(|e| e.0));
        for template in parted.chain(UNCHANGED.iter().copied()) {
            self.in_both_editions(COLOUR, template, info());
            self.in_both_editions(HEADS, template, measured(HEAD, b"H-07"));
        }
        for (template, _, number) in LIMITS {
            self.refused(*number, 0, template, info());
        }
        self.heads_by_chance();
    }

    /// Plain and coloured, and of a host and a print without level.
    fn shown(&mut self, settings: u8, template: &str, record: Record) {
        let host = Record { source: HOST, ..record.clone() };
        let print = Record { level: 0, ..record.clone() };
        self.alike(FAMILY, settings, template, vec![record.clone(), print]);
        self.alike(FAMILY, settings | COLOUR, template, vec![record, host]);
    }

    /// 14, 11 and 12, whatever the template shows.
    fn refused_heads(&mut self) {
        for template in ["{s}", "{d}{s}"] {
            for (settings, mask, serial, number) in REFUSED {
                for level in [3, 0] {
                    self.refused(*number, *settings, template, Record { level, ..measured(*mask, serial) });
                }
            }
            for (message, number) in MESSAGES {
                for serial in [&[b'H'; 33][..], b"\xff"] {
                    let record = Record { message: message.to_vec(), ..measured(HEAD, serial) };
                    self.refused(*number, HEADS, template, record);
                }
            }
        }
    }

    /// With 14 the port prints alike: the crate cannot be given such a record.
    fn refused(&mut self, number: u8, settings: u8, template: &str, record: Record) {
        let number = if number == 14 { 0 } else { number };
        self.put(number, true, FAMILY, Sheet { settings, template: template.into(), records: vec![record] });
    }

    fn heads_by_chance(&mut self) {
        let mut room = 300;
        while room > 0 {
            let depth = 1 + self.rng.below(4);
            let whole = self.rng.template(depth);
            let template = if self.rng.one_in(4) { whole } else { self.rng.headed(&whole) };
            let layout = Layout::BOTH[usize::from(!self.rng.one_in(4))];
            let settings = self.settings() | layout.bit();
            let mask = self.rng.below(if layout == Layout::Old { 8 } else { 16 }) as u8;
            let sheet = Sheet { settings, template: template.into(), records: vec![self.rng.record_with(mask)] };
            let ruled = matches!(ruling::template(&sheet.template, Names::All), Ok(_) | Err(3 | 4));
            if ruled && !is_listed(&sheet) && head::asked(&sheet).is_some() {
                room -= 1;
                self.put(0, true, FAMILY, sheet);
            }
        }
    }
}
