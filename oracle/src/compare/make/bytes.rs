//! Every four bytes at the edges of Unicode's table of UTF-8, at several places of a message and of a serial: alone, before,
//! after and among other characters, and across the end of a block.

use crate::sheet::{Layout, Record, HEAD};

const EDGES: &[u8; 20] = b"a\x7f\x80\x8f\x90\x9f\xa0\xbf\xc0\xc1\xc2\xdf\xe0\xe1\xed\xee\xf0\xf1\xf4\xf5";

const AT_ONCE: u32 = 4;

/// What stands before the four bytes and behind them, each a piece and how often.
type Place = ((&'static str, usize), (&'static str, usize));

/// In a message. A block has 32 bytes and begins with the fourth of a text.
const MESSAGES: [Place; 10] = [
    (("", 0), ("", 0)),
    (("", 0), ("x", 40)),
    (("x", 33), ("", 0)),
    (("x", 33), ("x", 40)),
    (("x", 40), ("", 0)),
    (("x", 40), ("x", 40)),
    (("é", 20), ("", 0)),
    (("é", 20), ("x", 40)),
    (("壁", 14), ("", 0)),
    (("壁", 14), ("x", 40)),
];

/// In a serial, which has 32 bytes at most.
const SERIALS: [Place; 4] = [(("", 0), ("", 0)), (("x", 28), ("", 0)), (("", 0), ("é", 14)), (("壁", 3), ("é", 9))];

/// A width that is counted in characters, of either.
const TEMPLATES: [&str; 2] = ["{s:>90}|", "{d:>40}|{s}"];

/// How many there are.
pub fn count() -> u64 {
    (EDGES.len() as u64).pow(AT_ONCE) * (MESSAGES.len() + SERIALS.len()) as u64
}

/// The template, and the record.
pub fn case(nth: u64) -> (&'static str, Vec<u8>) {
    let places = (MESSAGES.len() + SERIALS.len()) as u64;
    let place = (nth % places) as usize;
    let four = four(nth / places);
    let known = Record { level: 3, ..Record::default() };
    match SERIALS.get(place) {
        Some(place) => {
            let record = Record { mask: HEAD, head: text(place, &four), message: b"hello".to_vec(), ..known };
            (TEMPLATES[1], record.write(Layout::New))
        }
        None => {
            let record = Record { message: text(&MESSAGES[place - SERIALS.len()], &four), ..known };
            (TEMPLATES[0], record.write(Layout::BOTH[(nth / places % 2) as usize]))
        }
    }
}

fn four(nth: u64) -> Vec<u8> {
    let edges = EDGES.len() as u64;
    (0..AT_ONCE).map(|place| EDGES[(nth / edges.pow(place) % edges) as usize]).collect()
}

fn text(((before, times), (after, often)): &Place, four: &[u8]) -> Vec<u8> {
    [before.repeat(*times).as_bytes(), four, after.repeat(*often).as_bytes()].concat()
}
