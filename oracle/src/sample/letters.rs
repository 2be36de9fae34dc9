//! Cases of letters beyond ASCII (document 02, E3), and of characters beside them that are none.

use super::cases::{info, Maker};
use super::LISTED;
use crate::examples::KELVIN;
use crate::sheet::{Record, Sheet, COLOUR, FILE};

/// Letters of several scripts, such as are easily taken for none, and characters that are none.
const CHARACTERS: &[&str] = &[
    "é", "ß", "Ж", "א", "न", "測", "の", "𝒳", "ª", "ſ", "İ", "Ⅷ", "\u{345}", "\u{212a}", "\u{301}", "²", "→", "└", "٣",
    "😀", "\u{80}",
];

/// Before and behind a character that ends a name, goes on with it or begins one.
const PLACES: &[(&str, &str)] = &[
    ("{s", "}"),
    ("{", "s}{s}"),
    ("{a", " {s}}"),
    ("{", "{L}%bold} {s}"),
    ("{s:red", "}"),
    ("{s:", "red}"),
    ("{x{s:bold", "}}"),
    ("{x{s%blue", "}}"),
    ("{[{s}]%red", "}"),
    ("{[{s}]%", "}"),
    ("{ff", "}{s}"),
];

/// Names of both kinds of characters.
const MIXED: &[&str] = &[
    "{Température {L}%bold} {s}",
    "{測定値 {L}%bold} {s}",
    "{Größe: {s:red}%underline}",
    "{t} Température: {s}",
    "{aé}",
    "{s:aé}",
    "{x{s:aé}}",
    "{x{s:aé}é}",
    "{[{s}]%aé}",
    "{xé{s}}",
    "{zé}",
    "{Zé{s}}",
    "{s:5:a→}",
    "{bold→:{s}x}",
    "{s:severityé}",
    "{s:sévérité}",
    "{x{é{s:aé}}{s}}",
    "{s}{aé}",
    "{e\u{301}te\u{301} {s}}",
    "{ﬀ}{s}",
    "{fé}{s}",
    "{x{s:é:red}}",
    "{a→{b{L:é}é%red}é%bold} {s}",
    "{é{è{ê{L}ë%red}ē}ė} {s}",
];

/// Such characters where no name is tried, or not right behind one.
const APART: &[&str] = &[
    "{é}",
    "{éa}",
    "{s:é}",
    "{é{s}}",
    "{x{s:é}}",
    "{s aé}",
    "{s}%aé",
    "{aé",
    "{s}{aé",
    "aé{s}",
    "{s}é",
    "{[aé{s}]}",
    "{s%aé}",
    "{s5é}",
    "{[{s}]xé%red}",
    "{s:5é}",
    "{s:→}",
    "{[{s}]%→}",
    "{@é{s}}",
    "{[é{s}]}",
    "{`é{s}}",
];

/// The Kelvin sign where it isn't the `k` of a colour word, and letters that are no `s` and no `i`.
const NO_KELVIN: &[&str] = &[
    "{s:stri\u{212a}e}",
    "{s:\u{212a}}",
    "{s:blac\u{212a}s}",
    "{\u{212a}{s}}",
    "{s blac\u{212a}}",
    "blac\u{212a} {s}",
    "{s:ſtrike}",
    "{s:werroſ}",
    "{s:whİte}",
    "{s:whıte}",
];

impl Maker {
    pub(super) fn letters(&mut self) {
        let family = "letters";
        for character in CHARACTERS {
            for (before, after) in PLACES {
                self.alike(family, COLOUR, &format!("{before}{character}{after}"), vec![info()]);
            }
        }
        for template in MIXED.iter().chain(APART).chain(NO_KELVIN) {
            for settings in [0, COLOUR] {
                self.alike(family, settings, template, vec![info()]);
            }
        }
        // Without colour the crate's black is not seen.
        for (template, _) in KELVIN {
            let sheet = Sheet { settings: COLOUR, template: (*template).into(), records: vec![info()] };
            self.put(LISTED, true, family, sheet);
        }
        self.many_f();
    }

    /// A run of more than 255 `f` is refused with 8 only where it is nothing but `f`.
    fn many_f(&mut self) {
        let record = Record { mask: FILE, file: b"x/y".to_vec(), ..info() };
        for count in [255, 256, 257] {
            let many = "f".repeat(count);
            for letter in ["é", "測", "\u{345}"] {
                self.alike("letters", 0, &format!("{{{many}{letter}}}{{s}}"), vec![record.clone()]);
            }
            for none in ["\u{301}", "→"] {
                let template = format!("{{{many}{none}}}{{s}}");
                if count <= 255 {
                    self.alike("letters", 0, &template, vec![record.clone()]);
                } else {
                    self.parted(8, "letters", template, record.clone());
                }
            }
        }
    }
}
