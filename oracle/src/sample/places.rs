//! Cases of the places rule (document 02, E14), most of them beside the same by characters.

use super::cases::{full, info, saying, Maker};
use super::is_listed;
use crate::examples::places::SHOWN;
use crate::head;
use crate::ruling::{self, wide, Names};
use crate::sheet::{Layout, Record, Sheet, COLOUR, HEAD, HEADS, HOST, PLACES, STRAIGHT, STRICT, UNKNOWN};

const FAMILY: &str = "places";

/// So many ranges of the table have their edges shown, among them the first and the last.
const RANGES: usize = 12;

/// Alone, in every alignment, and in groups.
const TEMPLATES: &[&str] = &[
    "{s:9}|",
    "{s:^09:bold}|",
    "{[{s:red}]%>12%underline}|",
    "{壁{s:^5}{測{L:7}%<012%red}%20}|",
    "{\x1b[{s:>02}壁%9%bold}|",
];

/// Wide characters beside narrow ones and sequences, whole and broken.
const MESSAGES: &[&str] =
    &["壁B3", "壁\x1b[0m壁\x1b[0mｶ", "\x1b[31m벽😀\x1b[0m", "\x1b[壁0m", "か\u{3099}e\u{301}", "0m壁", ""];

/// The texts of a record beside its message; and the serial, where {F} can stand in for it.
const FIELDS: &str = "{f:^9}|{ff:>12:red}|{F:09}|{c:5}|{m:<9:bold}|{t:>07}|{[{s}{L:0}]%15%cyan}|";
const SERIAL: &str = "{c:5}|{m:<9:bold}|{t:>07}|{d:^8}|{[{s}{d}]%15%cyan}|";

impl Maker {
    pub(super) fn places(&mut self) {
        for (settings, template, message, _) in SHOWN {
            self.by_both(*settings, template, saying(message));
        }
        for template in TEMPLATES {
            for message in MESSAGES {
                let settings = if self.rng.one_in(3) { 0 } else { COLOUR };
                self.by_both(settings, template, saying(message));
            }
            self.shown_by_places(COLOUR | STRAIGHT, template, saying("壁\x1b[0m壁"));
        }
        self.edges();
        self.other_texts();
        self.other_settings();
        self.places_by_chance();
    }

    fn by_both(&mut self, settings: u8, template: &str, record: Record) {
        self.alike(FAMILY, settings & !(PLACES | STRAIGHT), template, vec![record.clone()]);
        self.shown_by_places(settings, template, record);
    }

    fn shown_by_places(&mut self, settings: u8, template: &str, record: Record) {
        self.alike(FAMILY, settings | PLACES, template, vec![record]);
    }

    /// The characters at both ends of ranges, and those beside them.
    fn edges(&mut self) {
        let ranges: Vec<(u32, u32)> = wide::ranges().collect();
        let step = ranges.len() / (RANGES - 1);
        let some = ranges.iter().step_by(step).chain(ranges.last());
        for (first, last) in some {
            let edges = [first - 1, *first, *last, last + 1].map(|point| char::from_u32(point).expect("a character"));
            let records = edges.iter().map(|edge| saying(&edge.to_string())).collect();
            self.alike(FAMILY, PLACES, "{s:>4}|", records);
            let all: String = edges.iter().collect();
            self.shown_by_places(COLOUR, "{[{s:red}]%bold%^16}|", saying(&all));
        }
    }

    /// File, module, timestamp and serial, of both sources, and a print without level.
    fn other_texts(&mut self) {
        let named = Record {
            file: "測定/壁.rs".into(),
            module: "測定::壁".into(),
            timestamp: "時0.5".into(),
            message: "壁".into(),
            ..full()
        };
        let measured = Record { mask: named.mask | HEAD, head: "ヘッド2".into(), ..named.clone() };
        for (layout, template, record) in [(0, FIELDS, &named), (HEADS, FIELDS, &measured), (HEADS, SERIAL, &measured)]
        {
            for settings in [layout, layout | COLOUR] {
                self.shown_by_places(settings, template, record.clone());
                self.shown_by_places(settings, template, Record { source: HOST, ..record.clone() });
                self.shown_by_places(settings, template, Record { level: 0, ..record.clone() });
            }
        }
    }

    /// With every other setting, with those that are refused first, and with a bit that is not known.
    fn other_settings(&mut self) {
        for settings in 0..PLACES {
            self.shown_by_places(settings, "{s:6}|", saying("壁B3"));
        }
        for template in ["{s:6}|{", "{s", "{x}{s:6}|"] {
            let sheet = Sheet { settings: PLACES, template: template.into(), records: vec![saying("壁")] };
            self.put(0, true, FAMILY, sheet);
        }
        let unused = Sheet { settings: PLACES | STRICT, template: "{s:6 壁}".into(), records: vec![saying("壁")] };
        self.put(super::DROPPED, true, FAMILY, unused);
        for settings in [UNKNOWN, UNKNOWN | PLACES, 64, 128, 255] {
            self.alike(FAMILY, settings, "{s:6}|", vec![saying("壁B3")]);
        }
        let several = vec![saying("壁B3"), info(), saying("クラック"), saying("0.412 ㎜")];
        for settings in [PLACES, PLACES | HEADS, PLACES | HEADS | COLOUR] {
            self.alike(FAMILY, settings, "{[{L}]%bold%<9}|{s:>12}|", several.clone());
        }
    }

    fn places_by_chance(&mut self) {
        let mut room = 60;
        while room > 0 {
            let depth = 1 + self.rng.below(4);
            let template = self.rng.template(depth).replace('x', "壁").replace('[', "[測");
            let layout = Layout::BOTH[self.rng.below(2)];
            let settings = PLACES | self.settings() | layout.bit();
            let mut record = self.rng.record();
            record.message = self.rng.pick(MESSAGES).into();
            let sheet = Sheet { settings, template: template.into(), records: vec![record] };
            let ruled = matches!(ruling::template(&sheet.template, Names::All), Ok(_) | Err(3 | 4));
            if ruled && !is_listed(&sheet) && head::asked(&sheet).is_some() {
                room -= 1;
                self.put(0, true, FAMILY, sheet);
            }
        }
    }
}
