//! Bytes at the edges of Unicode's table of UTF-8, well-formed or nearly.

use crate::sample::random::Rng;

const FIRST: &[u8] = b"\xc2\xdf\xe0\xe1\xec\xed\xee\xef\xf0\xf1\xf3\xf4";
const TRAILING: &[u8] = b"\x80\x8f\x90\x9f\xa0\xbf";
const FILLINGS: &[&str] = &["x", "x", "é", "壁", "😀"];
const WRONG: &[u8] = b"\x7f\x80\xbf\xc0\xc1\xc2\xf5\xff";

/// One character; in one of eight a byte is wrong, or missing, or one too many.
pub fn character(rng: &mut Rng) -> Vec<u8> {
    let first = FIRST[rng.below(FIRST.len())];
    let mut bytes = vec![first];
    let due = match first {
        0xf0.. => 3,
        0xe0.. => 2,
        _ => 1,
    };
    bytes.extend((0..due).map(|_| TRAILING[rng.below(TRAILING.len())]));
    let at = rng.below(bytes.len());
    match rng.below(24) {
        0 => drop(bytes.remove(at)),
        1 => bytes.push(TRAILING[0]),
        2 => bytes[at] = WRONG[rng.below(WRONG.len())],
        _ => {}
    }
    bytes
}

/// Up to three of them, among so many other bytes that any place in a block is met.
pub fn text(rng: &mut Rng) -> Vec<u8> {
    let mut text = filling(rng);
    for _ in 0..1 + rng.below(3) {
        text.extend(character(rng));
    }
    text.extend(filling(rng));
    text
}

/// Up to 140 characters of one kind, mostly none.
fn filling(rng: &mut Rng) -> Vec<u8> {
    let count = if rng.one_in(3) { rng.below(140) } else { 0 };
    rng.pick(FILLINGS).repeat(count).into_bytes()
}
