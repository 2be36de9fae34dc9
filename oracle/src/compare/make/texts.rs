//! Texts with colour sequences, whole and broken, among any bytes.

use crate::sample::random::Rng;

/// What sequences are made of, and what breaks them.
const PIECES: &[&[u8]] = &[
    b"\x1b",
    b"\x1b[",
    b"[",
    b"m",
    b";",
    b"0",
    b"31",
    b"\x1b[0m",
    b"\x1b[1;31m",
    b"\x1b[m",
    b"\x1b[;;",
    b"M",
    b":",
    b"/",
    b" ",
    b"\x1a",
    b"\x1c",
    b"\xff",
    b"\xc3",
    b"\x9b",
    b"\0",
    b"x",
    "\u{e9}".as_bytes(),
];

/// Pieces at random, or a sequence of many digits with perhaps one byte wrong; now and then behind so many plain bytes
/// that any place in a block of 128 is met.
pub fn text(rng: &mut Rng) -> Vec<u8> {
    let mut text = vec![b'x'; if rng.one_in(4) { rng.below(300) } else { 0 }];
    for _ in 0..1 + rng.below(3) {
        if rng.one_in(4) {
            text.extend(long_sequence(rng));
        } else {
            text.extend((0..rng.below(12)).flat_map(|_| piece(rng)));
        }
    }
    text
}

fn piece(rng: &mut Rng) -> &'static [u8] {
    PIECES[rng.below(PIECES.len())]
}

fn long_sequence(rng: &mut Rng) -> Vec<u8> {
    let mut sequence = b"\x1b[".to_vec();
    sequence.extend((0..rng.below(400)).map(|_| b"0123456789;"[rng.below(11)]));
    sequence.push(b'm');
    if rng.one_in(2) {
        let at = rng.below(sequence.len());
        sequence[at] = rng.below(256) as u8;
    }
    sequence
}
