//! Chance with a seed, and what is drawn from it: parameters, templates, records.

use crate::sheet::{Record, DEVICE, FILE, HEAD, HOST, LINE, MODULE};

/// splitmix64: small, and the same on every machine.
pub struct Rng(pub u64);

impl Rng {
    fn next(&mut self) -> u64 {
        self.0 = self.0.wrapping_add(0x9e37_79b9_7f4a_7c15);
        let mut z = self.0;
        z = (z ^ (z >> 30)).wrapping_mul(0xbf58_476d_1ce4_e5b9);
        z = (z ^ (z >> 27)).wrapping_mul(0x94d0_49bb_1331_11eb);
        z ^ (z >> 31)
    }

    pub fn below(&mut self, bound: usize) -> usize {
        (self.next() % bound as u64) as usize
    }

    pub fn one_in(&mut self, count: usize) -> bool {
        self.below(count) == 0
    }

    pub fn pick<'a, T: ?Sized>(&mut self, from: &[&'a T]) -> &'a T {
        from[self.below(from.len())]
    }

    pub fn shuffle<T>(&mut self, items: &mut [T]) {
        for i in (1..items.len()).rev() {
            items.swap(i, self.below(i + 1));
        }
    }
}

pub const SPECIFIERS: &[&str] = &["c", "F", "l", "s", "L", "m", "t", "f", "ff", "fff"];
pub const COLOURS: &[&str] = &["black", "red", "green", "yellow", "blue", "magenta", "purple", "cyan", "white"];
pub const STYLES: &[&str] = &["bold", "italic", "underline", "strike", "dimmed"];
pub const WIDTHS: &[&str] = &[
    "0", "1", "4", "5", "9", "12", "07", "00", "<9", "^9", ">9", "^8", "<09", "^09", ">012", "<0", "^1", ">40", "^33",
];

const TEXTS: &[&str] = &[
    " ",
    "[",
    "]",
    "(",
    ")",
    "|",
    "x",
    "abc",
    ": ",
    " - ",
    "\n",
    "\t",
    " é",
    "→",
    "└─ ",
    "[漢字]",
    "𝄞",
    "1",
    "0m",
    "\x1b[",
    "\x1b[0m",
    "\x1b[1;31m",
    "\x1b[m",
    "a\\b",
    "\\\\",
    " }",
];
pub const FILES: &[&str] = &[
    "main.rs",
    "src/main.rs",
    "/a/b.rs",
    "/srv/app/src/foo/bar.rs",
    "a//b",
    "a/./b.rs",
    "a/../b.rs",
    "src/",
    "/",
    "..",
    "../x.rs",
    "été/naïf.rs",
    "漢/字.rs",
    "a b/c d.rs",
    ".hidden",
    "a/.b",
    "...",
    "C:\\a\\b.rs",
];
pub const MODULES: &[&str] = &[
    "app",
    "app::main",
    "app::net::tcp::Socket::open",
    "::x",
    "a::",
    "a:::b",
    "a:b",
    "",
    ":",
    "::",
    "::::",
    "é::ü",
    "a.b::c",
    "app::{closure#0}",
    "<impl A for B>::f",
];
const TIMESTAMPS: &[&str] = &["", "", "0", "0.000001", "123456", "12:34:56.789", "é→", "\x1b[2m5\x1b[0m"];
pub const MESSAGES: &[&str] = &[
    "hello",
    "",
    "x",
    "two words",
    "line one\nline two",
    "tab\there",
    "héllo wörld",
    "漢字",
    "🦀 crab",
    "e\u{301}",
    "{s} %d {}",
    "\\",
    "\x1b[31mred\x1b[0m",
    "a\x1b[0mb",
    "\x1b[0m",
    "\x1b[m",
    "a\x1b[mb\x1b[0mc",
    "\x1b[0m\x1b[0m",
    "0m",
    "m",
    "[0m",
    "\x1b",
    "\x1b[",
    "\x1b[1;",
    "\x1b[1Kx",
    "\x1b[\x1b[0m0m",
    "\x1b[00m",
    "\x1b[;m.",
    "x\u{9b}0m",
    " left: `1`\nright: `2`",
    "a much longer message that no small width holds",
];
const LINES: &[u32] = &[0, 1, 7, 42, 999, 1000, 12345, 99999, u32::MAX];

/// Up to 32 bytes, the most that are allowed.
pub const SERIALS: &[&str] = &[
    "",
    "H",
    "H-07",
    "<head>",
    "tête",
    "ヘッド2",
    "\x1b[31mH\x1b[0m",
    "\x1b[",
    "a::b",
    "./a/b.rs",
    "wall B3, upper left, head no. 07",
    "wall B3, upper left, head no. 7",
    "éééééééééééééééé",
];

/// A colour word in one of four ways to write it.
pub fn in_case(word: &str, way: usize) -> String {
    let letter = |(i, c): (usize, char)| match way {
        0 => c,
        1 => c.to_ascii_uppercase(),
        2 if i == 0 => c.to_ascii_uppercase(),
        3 if i % 2 == 1 => c.to_ascii_uppercase(),
        _ => c,
    };
    word.chars().enumerate().map(letter).collect()
}

impl Rng {
    pub fn colour(&mut self) -> String {
        match self.below(4) {
            0 => self.pick(&["severity", "werror"]).to_string(),
            _ => {
                let word = self.pick(COLOURS);
                let way = [0, 0, 0, 1, 2, 3][self.below(6)];
                in_case(word, way)
            }
        }
    }

    fn parameter(&mut self) -> String {
        match self.below(3) {
            0 => self.colour(),
            1 => self.pick(STYLES).to_string(),
            _ => self.pick(WIDTHS).to_string(),
        }
    }

    /// Up to three parameters, mostly of different kinds, each behind `separator`.
    fn parameters(&mut self, separator: char) -> String {
        let mut kinds = [self.colour(), self.pick(STYLES).to_string(), self.pick(WIDTHS).to_string()];
        self.shuffle(&mut kinds);
        let mut text = String::new();
        for kind in &kinds[..self.below(4)] {
            text.push(separator);
            text.push_str(kind);
        }
        if self.one_in(25) {
            text.push(separator);
            text.push_str(&self.parameter());
        }
        text
    }

    fn specifier(&mut self) -> String {
        let name = self.pick(SPECIFIERS);
        format!("{{{name}{}}}", self.parameters(':'))
    }

    /// A group that nests to `depth` at most; most have the direct specifier that they need.
    fn group(&mut self, depth: usize) -> String {
        let mut members = vec![self.pick(TEXTS).to_string()];
        if !self.one_in(25) {
            members.push(self.specifier());
        }
        for _ in 0..self.below(3) {
            members.push(match self.below(3) {
                0 => self.pick(TEXTS).to_string(),
                1 => self.specifier(),
                _ => self.brace(depth - 1),
            });
        }
        if !self.one_in(4) {
            self.shuffle(&mut members[1..]);
        }
        format!("{{{}{}}}", members.concat(), self.parameters('%'))
    }

    fn brace(&mut self, depth: usize) -> String {
        match self.below(8) {
            _ if depth <= 1 => self.specifier(),
            0..=2 => self.specifier(),
            // parameters before a group: they are lost, or too many
            3 => format!("{{{}:{}", self.parameter(), &self.group(depth)[1..]),
            _ => self.group(depth),
        }
    }

    pub fn template(&mut self, depth: usize) -> String {
        let mut items: Vec<String> = (0..1 + self.below(3)).map(|_| self.brace(depth)).collect();
        items.push(self.pick(TEXTS).to_string());
        if !items.concat().contains("{s") && !self.one_in(20) {
            items.push("{s}".to_string());
        }
        self.shuffle(&mut items);
        items.concat()
    }

    /// Groups in groups, exactly `depth` deep.
    pub fn tower(&mut self, depth: usize) -> String {
        let mut text = self.specifier();
        for _ in 1..depth {
            text = format!("{{{}{}{text}{}}}", self.pick(TEXTS), self.specifier(), self.parameters('%'));
        }
        text + "{s}"
    }

    /// Pieces of templates in any order: most are damaged.
    pub fn soup(&mut self) -> String {
        const PIECES: &[&str] = &[
            "{", "{", "{", "}", "}", "}", ":", ":", "%", "%", "s", "L", "t", "f", "ff", "l", "c", "m", "F", "bold",
            "red", "severity", "07", "<9", "^3", ">12", "<", " ", "x", "[", "]", "\\", "→", "é", "{s}", "{s}", "{L}",
            "junk", "\n", "\x1b[0m",
        ];
        let mut text: String = (0..1 + self.below(12)).map(|_| self.pick(PIECES)).collect();
        if !self.one_in(3) {
            text.push_str("{s}");
        }
        text
    }

    /// One character taken out, put in, doubled or replaced.
    pub fn damaged(&mut self, template: &str) -> String {
        let mut characters: Vec<char> = template.chars().collect();
        let at = self.below(characters.len());
        let other = *self.pick(&[&'{', &'}', &':', &'%', &'\\', &'s', &'L', &'0', &'<', &' ', &'x', &'→']);
        match self.below(4) {
            0 => drop(characters.remove(at)),
            1 => characters.insert(at, other),
            2 => characters.insert(at, characters[at]),
            _ => characters[at] = other,
        }
        characters.into_iter().collect()
    }

    pub fn record(&mut self) -> Record {
        let mask = self.below(8) as u8;
        self.record_with(mask)
    }

    pub fn record_with(&mut self, mask: u8) -> Record {
        let source = if self.one_in(4) { HOST } else { DEVICE };
        let level = match self.below(12) {
            0 if source == DEVICE => 0,
            _ => 1 + self.below(5) as u8,
        };
        let mut record = Record { source, level, mask, ..Record::default() };
        if mask & FILE != 0 {
            record.file = self.pick(FILES).into();
        }
        if mask & LINE != 0 {
            record.line = LINES[self.below(LINES.len())];
        }
        if mask & MODULE != 0 {
            record.module = self.pick(MODULES).into();
        }
        record.timestamp = self.pick(TIMESTAMPS).into();
        record.message = self.pick(MESSAGES).into();
        if mask & HEAD != 0 {
            record.head = self.pick(SERIALS).into();
        }
        record
    }

    /// The template with `d` in place of one of its names, or with `{d}` before it.
    pub fn headed(&mut self, template: &str) -> String {
        let named = |at: &usize| template[*at..].starts_with(['c', 'F', 'l', 'L', 'm', 't', 'f']);
        let names: Vec<usize> = template.match_indices('{').map(|(at, _)| at + 1).filter(named).collect();
        if names.is_empty() || self.one_in(4) {
            return format!("{{d{}}}{template}", self.parameters(':'));
        }
        let at = names[self.below(names.len())];
        [&template[..at], "d", &template[at + 1..]].concat()
    }
}
