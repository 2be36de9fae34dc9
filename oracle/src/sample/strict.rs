//! Cases of the strict edition (document 02, E5), most of them beside the same in the first.

use super::cases::{full, info, Maker};
use super::{is_listed, may_cross, DROPPED};
use crate::examples::STRICT as EXAMPLES;
use crate::ruling::{self, Names, Reading};
use crate::sheet::{Record, Sheet, COLOUR, HOST, STRICT};
use crate::stub::format::built_in;

/// Refused alike in both editions: 3 and 4, though bytes are dropped or a parameter lost before that.
const REFUSED: &[&str] =
    &["{s:}", "{t}%{s}", "{L x}", "{L x}{}", "{bold:[{L}]}{s:red:red}", "{s x}{[{L}]%x}", "%{s}", "{s"];

impl Maker {
    pub(super) fn strict(&mut self) {
        for (template, ..) in EXAMPLES {
            for settings in [0, COLOUR] {
                self.in_both_editions(settings, template, info());
            }
            self.in_both_editions(COLOUR, template, full());
        }
        for template in REFUSED {
            self.in_both_editions(0, template, info());
        }
        self.strict_built_ins();
        self.other_refusals();
        self.strict_by_chance();
    }

    pub(super) fn in_both_editions(&mut self, settings: u8, template: &str, record: Record) {
        let number = if is_unused(template) { DROPPED } else { 0 };
        self.alike("strict", settings, template, vec![record.clone()]);
        let sheet = Sheet { settings: settings | STRICT, template: template.into(), records: vec![record] };
        self.put(number, true, "strict", sheet);
    }

    fn strict_built_ins(&mut self) {
        for choice in 0..8 {
            let template = built_in(choice & 4 != 0, choice & 2 != 0, choice & 1 != 0);
            self.in_both_editions(COLOUR, template, full());
            self.in_both_editions(COLOUR, &format!("{template} (HOST)"), Record { source: HOST, ..full() });
        }
    }

    /// A template's other numbers come before 17, a record's behind it.
    fn other_refusals(&mut self) {
        let strictly =
            |template: &str, record| Sheet { settings: STRICT, template: template.into(), records: vec![record] };
        let long = "{s x}".to_string() + &"x".repeat(1020);
        let many = "{s x}".repeat(65);
        let name = format!("{{s x}}{{{}}}", "f".repeat(256));
        let deep = format!("{{s x}}{}{}", "{".repeat(9), "}".repeat(9));
        for (number, template) in
            [(1, &*long), (5, &many), (6, &deep), (7, "{s x}{L:513}"), (8, &name), (9, "{s x}{\\")]
        {
            self.put(number, true, "strict", strictly(template, info()));
        }
        let broken = Sheet { settings: STRICT, template: b"{s x}\xff".to_vec(), records: vec![info()] };
        self.put(2, true, "strict", broken);
        let wrong = [
            Record { level: 6, ..info() },
            Record { message: vec![b'm'; 4097], ..info() },
            Record { timestamp: b"\xff".to_vec(), ..info() },
        ];
        for record in wrong {
            self.put(DROPPED, true, "strict", strictly("{s x}", record));
        }
        self.put(12, true, "strict", strictly("{s}", Record { timestamp: b"\xff".to_vec(), ..info() }));
    }

    /// So many that are read, and so many of which bytes are dropped or a parameter is lost.
    fn strict_by_chance(&mut self) {
        let mut room = [150, 150, 100];
        for turn in 0..30_000 {
            let depth = 1 + self.rng.below(4);
            let whole = self.rng.template(depth);
            let template = match turn % 3 {
                0 => self.rng.soup(),
                1 => self.rng.damaged(&whole),
                _ => whole,
            };
            let record = self.rng.record();
            let Ok(Reading { unused, .. }) = ruling::template(template.as_bytes(), Names::All) else { continue };
            let kind = if unused.lost.is_empty() { usize::from(!unused.dropped.is_empty()) } else { 2 };
            let sheet = Sheet { settings: STRICT | COLOUR, template: template.into(), records: vec![record] };
            if room[kind] > 0 && !may_cross(&sheet.template) && !is_listed(&sheet) {
                room[kind] -= 1;
                self.put(if kind == 0 { 0 } else { DROPPED }, false, "strict", sheet);
            }
        }
    }
}

fn is_unused(template: &str) -> bool {
    ruling::template(template.as_bytes(), Names::All).map_or(false, |reading| reading.unused.place().is_some())
}
