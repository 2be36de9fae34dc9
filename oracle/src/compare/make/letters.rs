//! Letters beyond ASCII, and what stands beside them and is none: in templates of chance, and every character of Unicode
//! in four places of a template.

use super::crossed::{put_before, put_behind};
use crate::sample::random::Rng;
use crate::sheet::Record;

/// Of many scripts and of two to four bytes; the Kelvin sign, a combining mark, a number and a modifier are letters, too.
const LETTERS: &[&str] = &[
    "é", "ü", "ß", "Å", "λ", "Ж", "א", "ع", "न", "ก", "가", "測", "の", "ア", "ქ", "𐍈", "𝒳", "𠀀", "ª", "ſ", "İ", "Ⅷ",
    "ⓚ", "🅰", "ʰ", "\u{345}", "\u{212a}",
];

const NO_LETTERS: &[&str] =
    &["→", "\u{301}", "²", "└─", "😀", "½", "٣", "€", "·", "。", "\u{80}", "\u{200d}", "\u{e000}", "\u{10ffff}"];

/// Words that a template knows but for one of these characters, and words that it does not know.
const WORDS: &[&str] = &[
    "blac\u{212a}",
    "BLAC\u{212a}",
    "blac\u{212a}é",
    "stri\u{212a}e",
    "ſtrike",
    "\u{212a}",
    "whİte",
    "severıty",
    "redé",
    "red→",
    "bold\u{301}",
    "bold\u{345}",
    "Température",
    "測定値",
    "ﬀ",
    "f→",
    "aé",
    "é",
    "9é",
];

pub fn template(rng: &mut Rng) -> Vec<u8> {
    let depth = 1 + rng.below(5);
    let mut template = if rng.one_in(4) { rng.tower(depth) } else { rng.template(depth) };
    for _ in 0..1 + rng.below(2) {
        template = match rng.below(10) {
            0 | 1 => changed(rng, &template),
            2..=5 => {
                let text = text(rng);
                put_before(rng, template, '{', &text)
            }
            6 => {
                let text = text(rng);
                put_behind(rng, template, &['s', 'L', 'd', 't', 'f'], &text)
            }
            7 | 8 => {
                let parameter = [rng.pick(&[":", "%"]), rng.pick(WORDS)].concat();
                put_before(rng, template, '}', &parameter)
            }
            _ => {
                let text = rng.pick(WORDS).to_string() + rng.pick(&["", " "]);
                put_behind(rng, template, &['{'], &text)
            }
        };
    }
    template.into_bytes()
}

/// One letter in four gives way to a character beyond ASCII, mostly a letter.
fn changed(rng: &mut Rng, template: &str) -> String {
    let mut text = String::new();
    for character in template.chars() {
        if character.is_ascii_alphabetic() && rng.one_in(4) {
            text.push_str(other(rng));
        } else {
            text.push(character);
        }
    }
    text
}

fn text(rng: &mut Rng) -> String {
    (0..1 + rng.below(4)).map(|_| other(rng)).collect()
}

fn other(rng: &mut Rng) -> &'static str {
    if rng.one_in(4) {
        rng.pick(NO_LETTERS)
    } else {
        rng.pick(LETTERS)
    }
}

/// Before and behind a character: behind a specifier, at the front of a group, behind a colour word and before one.
pub const PLACES: [(&str, &str); 4] = [("{s", "}"), ("{", "{s}}"), ("{s:red", "}"), ("{s:", "red}")];

/// Surrogates are none.
pub const CHARACTERS: u64 = 0x11_0000 - 0x800;

/// How many there are of every character in every place.
pub fn count() -> u64 {
    CHARACTERS * PLACES.len() as u64
}

pub fn nth_template(nth: u64) -> String {
    let places = PLACES.len() as u64;
    let (before, after) = PLACES[(nth % places) as usize];
    format!("{before}{}{after}", nth_character(nth / places))
}

pub fn nth_character(nth: u64) -> char {
    let point = nth as u32;
    let point = if point < 0xd800 { point } else { point + 0x800 };
    char::from_u32(point).expect("no surrogate")
}

pub fn record() -> Record {
    Record { level: 3, message: b"hello".to_vec(), ..Record::default() }
}
