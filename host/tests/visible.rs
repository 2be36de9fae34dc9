//! What is visible of a text: the colour taken out by the archive.

mod common;

use common::PAINT;
use pralakuon::{visible, visible_into, visible_str, Refusal};

/// Texts and what is visible of them.
const TEXTS: [(&[u8], &[u8]); 18] = [
    (b"", b""),
    (b"hello", b"hello"),
    (b"\x1b[0m", b""),
    (b"\x1b[m", b""),
    (b"\x1b[;;m", b""),
    (b"\x1b[1;31mERROR\x1b[0m reading", b"ERROR reading"),
    (b"\x1b[1m\x1b[2m\x1b[3m", b""),
    // Broken ones stay.
    (b"\x1b", b"\x1b"),
    (b"\x1b[", b"\x1b["),
    (b"\x1b[31", b"\x1b[31"),
    (b"\x1b[31;", b"\x1b[31;"),
    (b"\x1b[3 1m", b"\x1b[3 1m"),
    (b"\x1b[31K", b"\x1b[31K"),
    (b"\x1b31m", b"\x1b31m"),
    // One that begins inside a broken one, and one that only comes together when another is taken out.
    (b"\x1b[3\x1b[0m1m", b"\x1b[31m"),
    (b"\x1b\x1b[0m[0m", b"\x1b[0m"),
    // Not UTF-8, and a byte 0.
    (b"\xff\x1b[0m\xc3\x00\x1b[7m\xed\xa0\x80", b"\xff\xc3\x00\xed\xa0\x80"),
    (b"\x1b[0\xb2m", b"\x1b[0\xb2m"),
];

#[test]
fn colour_is_taken_out_of_any_bytes() {
    for (text, seen) in TEXTS {
        assert_eq!(visible(text).unwrap(), seen, "{}", text.escape_ascii());
    }
    let long: Vec<u8> = TEXTS.iter().cycle().take(3_600).flat_map(|(text, _)| [text, &b"|"[..]].concat()).collect();
    let seen: Vec<u8> = TEXTS.iter().cycle().take(3_600).flat_map(|(_, seen)| [seen, &b"|"[..]].concat()).collect();
    assert!(visible(&long) == Ok(seen));
}

#[test]
fn a_text_stays_a_text() {
    assert_eq!(visible_str("\x1b[32mété\x1b[0m 漢\x1b[1\u{b2}m").as_deref(), Ok("été 漢\x1b[1\u{b2}m"));
}

#[test]
fn no_more_room_is_needed_than_what_is_seen() {
    for (text, seen) in TEXTS {
        for room in 0..=text.len() + 1 {
            let mut out = vec![PAINT; room];
            let answer = visible_into(text, &mut out);
            if room < seen.len() {
                assert_eq!(answer, Err(Refusal::LineTooLong { needed: seen.len() }));
                assert!(out.iter().all(|&byte| byte == PAINT), "changed by a refusal");
            } else {
                assert_eq!(answer, Ok(seen.len()));
                assert_eq!(&out[..seen.len()], seen);
                assert!(out[seen.len()..].iter().all(|&byte| byte == PAINT), "changed behind what is seen");
            }
        }
    }
}
