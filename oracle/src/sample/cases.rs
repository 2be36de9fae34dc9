//! The cases of the list, family by family; `limits.rs` has those at the port's limits.

use super::random::{in_case, Rng, COLOURS, FILES, MESSAGES, MODULES, SPECIFIERS, STYLES, WIDTHS};
use super::{is_listed, may_cross, LISTED};
use crate::examples::{COLOURED, CRATES, PARTED, PATHS, PLAIN, REFUSED, VISIBLE};
use crate::judge;
use crate::sheet::{Layout, Record, Sheet, COLOUR, FILE, HOST, LINE, MODULE, STRAIGHT};
use crate::stub::format::built_in;
use std::collections::HashSet;

pub struct Case {
    /// 0 where the port must print the same, else the difference.
    pub number: u8,
    pub family: &'static str,
    /// Known from its making to be within the template's limits, so the wide net is not asked.
    pub known: bool,
    pub sheet: Sheet,
}

pub fn all(seed: u64) -> Vec<Case> {
    let mut maker = Maker { rng: Rng(seed), cases: Vec::new(), seen: HashSet::new() };
    maker.examples();
    maker.parameters();
    maker.styles();
    maker.built_ins();
    maker.levels();
    maker.paths();
    maker.modules();
    maker.sequences();
    maker.characters();
    maker.letters();
    maker.nested();
    maker.damaged();
    maker.template_limits();
    maker.width_limits();
    maker.file_name_limits();
    maker.backslash_limits();
    maker.segment_limits();
    maker.depth_limits();
    maker.field_limits();
    maker.listed();
    maker.strict();
    maker.heads();
    maker.places();
    maker.reports();
    maker.cases
}

pub(super) struct Maker {
    pub(super) rng: Rng,
    cases: Vec<Case>,
    seen: HashSet<Vec<u8>>,
}

pub(super) fn info() -> Record {
    Record { level: 3, message: b"hello".to_vec(), ..Record::default() }
}

/// Every field present and none that the crate treats in a special way.
pub(super) fn full() -> Record {
    Record {
        level: 1,
        mask: FILE | LINE | MODULE,
        line: 42,
        file: b"/srv/app/src/main.rs".to_vec(),
        module: b"app::net::open".to_vec(),
        timestamp: b"0.001234".to_vec(),
        message: b"hello".to_vec(),
        ..Record::default()
    }
}

pub(super) fn saying(message: &str) -> Record {
    Record { message: message.into(), ..info() }
}

impl Maker {
    pub(super) fn put(&mut self, number: u8, known: bool, family: &'static str, sheet: Sheet) {
        if self.seen.insert(sheet.write()) {
            self.cases.push(Case { number, family, known, sheet });
        }
    }

    /// A case that the port prints alike, made to be within the limits.
    pub(super) fn alike(&mut self, family: &'static str, settings: u8, template: &str, records: Vec<Record>) {
        self.put(0, true, family, Sheet { settings, template: template.into(), records });
    }

    /// A case of chance: dropped unless it is surely within the limits. True when kept.
    fn chance(&mut self, family: &'static str, template: &str, records: Vec<Record>) -> bool {
        let settings = self.settings();
        let sheet = Sheet { settings, template: template.into(), records };
        let kept = template.len() <= 1024 && !may_cross(&sheet.template) && !is_listed(&sheet);
        if kept {
            self.put(0, false, family, sheet);
        }
        kept
    }

    /// Without colour nothing is inserted, so there the port's straight mode prints alike too.
    pub(super) fn settings(&mut self) -> u8 {
        match self.rng.below(16) {
            0 => STRAIGHT,
            n if n < 5 => 0,
            _ => COLOUR,
        }
    }

    /// A case that the port answers with `number`, in both colours where the sheet is small.
    pub(super) fn parted(&mut self, number: u8, family: &'static str, template: impl AsRef<[u8]>, record: Record) {
        for settings in [0, COLOUR] {
            let sheet = Sheet { settings, template: template.as_ref().to_vec(), records: vec![record.clone()] };
            if settings == 0 || sheet.write().len() < 700 {
                self.put(number, true, family, sheet);
            }
        }
    }

    fn examples(&mut self) {
        let templates = PLAIN.iter().map(|e| e.0).chain(REFUSED.iter().map(|e| e.0));
        for template in templates {
            let host = Record { source: HOST, ..full() };
            self.alike("examples", 0, template, vec![info(), full()]);
            self.alike("examples", COLOUR, template, vec![full(), host]);
        }
        for (number, template, _) in PARTED {
            self.parted(*number, "examples", template, info());
        }
        for (level, template, message, _) in COLOURED {
            for settings in [0, COLOUR] {
                let record = Record { level: *level, ..saying(message) };
                self.alike("examples", settings, template, vec![record]);
            }
        }
        for (template, message, _) in VISIBLE {
            for settings in [0, COLOUR] {
                self.alike("examples", settings, template, vec![saying(message)]);
            }
        }
        for template in ["{ff}{s}", "{fff}{s}"] {
            let record = Record { mask: FILE, file: b"/a/b.rs".to_vec(), ..info() };
            self.alike("examples", 0, template, vec![record]);
        }
        self.parted(7, "examples", "{s:513}", info());
    }

    /// Every specifier with every parameter; every colour word in four ways to write it.
    fn parameters(&mut self) {
        let mut words: Vec<String> = ["severity", "werror"].map(String::from).to_vec();
        words.extend(STYLES.iter().chain(WIDTHS).map(|word| word.to_string()));
        for colour in COLOURS {
            words.extend((0..4).map(|way| in_case(colour, way)));
        }
        for specifier in SPECIFIERS {
            for word in &words {
                let tail = if *specifier == "s" { "" } else { "{s}" };
                let template = format!("{{{specifier}:{word}}}|{tail}");
                let record = self.rng.record();
                self.chance("parameters", &template, vec![record]);
                if self.rng.one_in(4) {
                    let template = format!("{{<{{{specifier}}}>%{word}}}|{tail}");
                    let record = self.rng.record();
                    self.chance("parameters", &template, vec![record]);
                }
            }
        }
    }

    /// Every set of styles, in any order, with and without a colour, on a specifier and on a group.
    fn styles(&mut self) {
        for set in 1..32 {
            let mut words: Vec<&str> = (0..5).filter(|i| set >> i & 1 == 1).map(|i| STYLES[i]).collect();
            for group in [false, true] {
                self.rng.shuffle(&mut words);
                let mut words: Vec<String> = words.iter().map(|word| word.to_string()).collect();
                if self.rng.one_in(2) {
                    words.insert(0, self.rng.colour());
                }
                let template = match group {
                    false => format!("{{s:{}}}", words.join(":")),
                    true => format!("{{[{{L}}]%{}}} {{s}}", words.join("%")),
                };
                let record = self.rng.record();
                self.alike("styles", COLOUR, &template, vec![record]);
            }
        }
    }

    /// Every built-in template with every presence mask, for both sources.
    fn built_ins(&mut self) {
        for choice in 0..8 {
            let template = built_in(choice & 4 != 0, choice & 2 != 0, choice & 1 != 0);
            for mask in 0..8 {
                for settings in [0, COLOUR] {
                    let device = Record { source: 0, ..self.rng.record_with(mask) };
                    let level = 1 + self.rng.below(5) as u8;
                    let host = Record { source: HOST, level, ..self.rng.record_with(mask) };
                    self.alike("built-ins", settings, template, vec![device]);
                    self.alike("built-ins", settings, &format!("{template} (HOST)"), vec![host]);
                }
            }
        }
    }

    /// Every level of both sources under each rule for colours.
    fn levels(&mut self) {
        let templates = [
            "{L} {s}",
            "{L:werror} {s:werror}",
            "{s:severity}",
            "{[{L:blue}]%severity%>12}{s}",
            "{[{L:6}]%werror} {s:9}|",
            "{l}{t:severity}{s:cyan}",
        ];
        for template in templates {
            for level in 0..6 {
                for source in 0..2 {
                    for settings in [0, COLOUR] {
                        let record = Record { source, level, ..full() };
                        if record.is_possible(Layout::Old) {
                            self.alike("levels", settings, template, vec![record]);
                        }
                    }
                }
            }
        }
    }

    fn paths(&mut self) {
        let more = [
            "a",
            "a/",
            "a/b/c/d/e/f/g/h",
            "/a",
            "//a//b//",
            "/../a",
            "a/..",
            "a/../..",
            "a/.",
            "a/./",
            "/./a",
            "/.",
            "//",
            "///",
            "a/./././b",
            "..//..",
            "../",
            "a.rs/..",
            "/.hidden/.x",
            ".../...",
            " ",
            "\n/x",
            "é",
            "/é/→",
            "\x1b[31m/a",
            "a\\b/c",
        ];
        let dotted = ["./a", "./a/b.rs", "./", "./..", ".//a", "./.", ".//", "/.", "a/./.b", "./.a", ".é/a"];
        let examples = PATHS.iter().map(|e| e.0).filter(|file| !file.is_empty());
        let files: Vec<&str> = FILES.iter().copied().chain(more).chain(dotted).chain(examples).collect();
        let templates = [
            "{f}|{ff}|{fff}|{ffff}|{fffffffff}|{F}|{s}",
            "{f:>9}|{ff:12:bold}|{fff:^015}|{s}",
            "{({fff}:{l})%dimmed%<20}|{s}",
        ];
        for file in files {
            for template in templates {
                let settings = self.settings();
                let record = Record { mask: FILE, file: file.into(), ..info() };
                self.alike("paths", settings, template, vec![record]);
            }
        }
        // A leading `.` that no count reaches, and an empty file that only {F} shows.
        for (template, file) in
            [("{f}{s}", "./a"), ("{ff}{s}", "./a/b.rs"), ("{F}{s}", "."), ("{F}{s}", "./a"), ("{F:3}|{s}", "")]
        {
            let record = Record { mask: FILE, file: file.into(), ..info() };
            self.alike("paths", 0, template, vec![record]);
        }
    }

    fn modules(&mut self) {
        let examples = CRATES.iter().map(|e| e.0);
        let modules: Vec<&str> = MODULES
            .iter()
            .copied()
            .chain(examples)
            .chain(["a::b:c", "a: :b", ":::a", "x\x1b[0m::y", "a::\n"])
            .collect();
        for module in modules {
            for template in ["{c}|{m}|{s}", "{c:bold:>9}|{m:012:red}|{s}"] {
                for source in 0..2 {
                    let settings = self.settings();
                    let record = Record { source, mask: MODULE, module: module.into(), ..info() };
                    self.alike("modules", settings, template, vec![record]);
                }
            }
        }
    }

    /// Colour sequences in messages, across members and out of zero padding.
    fn sequences(&mut self) {
        let templates = [
            "{s:12}|",
            "{s:bold:^12}|",
            "{[{s}]%bold%<12}|",
            "{[{s:red}]%underline%>20}|",
            "{({[{s:red}{L}]%bold}{L:0})%dimmed%^040}|{s}",
            "{\x1b[{s}x%bold%<9}|",
            "{\x1b[{s:>02}x%red%>9}|",
            "{\x1b[{s:^04}{L}%bold%012}|",
            "{\x1b{s}%italic%5}|",
            "{\x1b[3{l:01}m{s}%bold%9}|",
            "{\x1b[{l:1}{s}{L:0}%strike%^30}|",
            "{a{\x1b[{L:0}{s}%red}m%bold%30}|{s}",
            "\x1b[{s}m|",
            "{\x1b[{s:4}m%bold%9}|",
            "{{\x1b[{s}%red}m{L}%bold%19}|",
        ];
        for template in templates {
            for message in MESSAGES {
                let settings = if self.rng.one_in(4) { 0 } else { COLOUR };
                let source = u8::from(self.rng.one_in(6));
                self.alike("sequences", settings, template, vec![Record { source, ..saying(message) }]);
            }
        }
    }

    fn characters(&mut self) {
        let texts = [
            "é",
            "ß→",
            "漢字",
            "𝄞𝄞",
            "(e\u{301}",
            "\u{7ff}\u{800}",
            "\u{d7ff}\u{e000}",
            "\u{ffff}\u{10000}",
            "\u{10ffff}",
            "\u{80}",
            "\u{0}",
        ];
        for text in texts {
            let templates = [
                format!("[{text}]{{s:6}}|"),
                format!("{{[{text}{{s}}]%>12%bold}}|"),
                format!("{{{text}{{s:^07}}%red}}|"),
                format!("{{[{text}{{f:5}}{{c:5}}{{t:5}}{{m:>9}}]%40}}|{{s}}"),
            ];
            for template in templates {
                for settings in [0, COLOUR] {
                    let module = format!("{text}::x").into_bytes();
                    let (file, timestamp, message) = (text.into(), text.into(), text.into());
                    let record = Record { mask: 5, file, module, timestamp, message, ..info() };
                    self.alike("characters", settings, &template, vec![record]);
                }
            }
        }
        // Bytes of 128 and more that touch no name.
        for template in
            ["{s1é}", "{s }é", "{s:9→}", "{x{s%→}}", "{[{s}]→%red}", "é{s}é", "{s}aé", "{s:<é}", "{x{L:9é}}{s}"]
        {
            self.alike("characters", 0, template, vec![info()]);
        }
    }

    fn nested(&mut self) {
        for depth in 1..=8 {
            let mut kept = 0;
            while kept < 35 {
                let template = self.rng.tower(depth);
                let record = self.rng.record();
                kept += usize::from(self.chance("towers", &template, vec![record]));
            }
        }
        let mut kept = 0;
        while kept < 650 {
            let depth = 2 + self.rng.below(4);
            let template = self.rng.template(depth);
            let records = (0..1 + self.rng.below(2)).map(|_| self.rng.record()).collect();
            kept += usize::from(self.chance("nested", &template, records));
        }
    }

    /// Soups and templates with one character wrong; not too many of those that are merely refused.
    fn damaged(&mut self) {
        let mut room = [350, 200, 500];
        for turn in 0..100_000 {
            let whole = self.rng.template(3);
            let template = if turn % 2 == 0 { self.rng.soup() } else { self.rng.damaged(&whole) };
            let record = self.rng.record();
            let kind = match judge::segments(template.as_bytes()).as_str() {
                "panic" => continue,
                "3" => 0,
                read => {
                    if read.starts_with('4') {
                        1
                    } else {
                        2
                    }
                }
            };
            if room[kind] > 0 && self.chance("damaged", &template, vec![record]) {
                room[kind] -= 1;
            }
        }
    }

    /// Differences that are no refusals.
    fn listed(&mut self) {
        for template in ["{f}{s}", "{ff:9}|{s}", "{x{f}}{s}"] {
            self.parted(LISTED, "listed", template, Record { mask: FILE, ..info() });
        }
        let sequences = Record { message: b"\x1b[0m".repeat(1024), ..info() };
        self.parted(LISTED, "listed", format!("{{{}}}", "{s}".repeat(16)), sequences);
    }
}
