//! Counting the characters of a text, and telling whether it is UTF-8: the port beside Rust's own. The port has no entry
//! for either, so that its times are differences: what a text adds to a line.

use super::timing::{all_in_turn, shown, Works, FINE};
use crate::sheet::{Layout, Record, FILE};
use pralakuon::entries;
use std::arch::asm;
use std::cell::RefCell;
use std::hint::black_box;
use std::str::from_utf8;
use std::thread;

const LENGTHS: [usize; 5] = [16, 64, 256, 1024, 4096];

const ASCII: &str = "wall B3 crack 0.412 mm, ";
const TWO_BYTE: &str = "é";
const THREE_BYTE: &str = "└";
const FOUR_BYTE: &str = "😀";
const FRENCH: &str = "À midi, la fissure du mur B3 avait 0,412 mm ; le soir, déjà 0,418 mm. Elle s'élargit près de la \
                      fenêtre, là où elle croise la poutre. Un témoin en plâtre, daté et numéroté, a été posé. ";
const JAPANESE: &str = "壁B3のひび割れは窓の右下から斜めに伸びている。幅は正午に0.412mm、夕方には0.418mmだった。\
                        石膏の目印を2か所に貼り、日付と番号を書いた。";

/// The accent is among the first bytes, so that the short texts have it too.
const ONE_ACCENT: &str = "La lézarde du mur B3 part du coin droit, monte vers le plafond et se perd sous la poutre ; \
                          son bord gauche ressort de 2,35 mm. ";
const _: () = assert!(ONE_ACCENT.len() == 128);

const COUNTED: [(&str, &str); 3] = [("ASCII", ASCII), ("two-byte", TWO_BYTE), ("three-byte", THREE_BYTE)];

const CHECKED: [(&str, &str); 8] = [
    ("ASCII", ASCII),
    ("two-byte", TWO_BYTE),
    ("three-byte", THREE_BYTE),
    ("four-byte", FOUR_BYTE),
    ("the four in turn", "aé└😀"),
    ("French prose", FRENCH),
    ("Japanese prose with digits", JAPANESE),
    ("ASCII, one accent in 128 bytes", ONE_ACCENT),
];

const WORD: usize = std::mem::size_of::<usize>();

/// Nanoseconds below which a difference is not told from none.
const TOLD: f64 = 5.0;

/// One for all lines, so that those of a row are written to the same place.
type Out = RefCell<Vec<u8>>;

/// A record whose last bytes are the text.
struct Row {
    name: &'static str,
    length: usize,
    record: Vec<u8>,
}

impl Row {
    /// The very bytes that the port is given. Rust's own go through words, and are at their best where one begins.
    fn text(&self) -> &str {
        let text = &self.record[self.record.len() - self.length..];
        assert_eq!(text.as_ptr().align_offset(WORD), 0, "a text begins with a word");
        from_utf8(text).expect("whole characters")
    }
}

/// On a thread of its own, whose stack begins with a page. Where the process's own stack begins is another place in
/// each run, and moves the time of a line by more than the short texts take.
pub fn run() {
    thread::spawn(print).join().expect("its end");
}

fn print() {
    let out = RefCell::new(vec![0; 8192]);
    counting(&out);
    checking(&out);
    note();
}

/// What the times are: only differences are free of what a call itself takes.
fn note() {
    let works: Works<3> = [
        Box::new(|| by_bytes(black_box(""))),
        Box::new(|| black_box("").chars().count()),
        Box::new(|| is_utf8(black_box("").as_bytes())),
    ];
    let [loops, count, check] = all_in_turn(vec![works], FINE)[0];
    println!(
        "The port's times are differences between lines. Below {TOLD} ns they are lost in noise, and shown as `< {TOLD}` \
         without a ratio. The other times are of whole calls: with the empty text the byte loop takes {} ns, Rust's count \
         {} ns and Rust's check {} ns.\n",
        shown(loops),
        shown(count),
        shown(check)
    );
}

fn counting(out: &Out) {
    println!(
        "| counting the characters of n bytes | n | a byte loop, ns | Rust's `chars().count()`, ns \
         | the same and `contains(&27)`, ns | port, with the search for byte 27, ns | byte loop / port \
         | Rust's count / port | Rust's both / port |\n|---|---|---|---|---|---|---|---|---|"
    );
    let (rows, none) = (rows(&COUNTED, saying), saying(""));
    let works = rows.iter().map(|row| count_works(row, &none, out)).collect();
    for (row, times) in rows.iter().zip(all_in_turn(works, FINE)) {
        let [loops, rusts, both, wide, bare, wide_none, bare_none] = times;
        let ports = (wide - bare) - (wide_none - bare_none);
        println!(
            "| {} | {} | {} | {} | {} | {} | {} | {} | {} |",
            row.name,
            row.length,
            shown(loops),
            shown(rusts),
            shown(both),
            difference(ports),
            ratio(loops, ports),
            ratio(rusts, ports),
            ratio(both, ports)
        );
    }
    println!();
}

/// The byte loop, Rust's count, Rust's count and search for byte 27, and the lines whose differences are the port's: with
/// a width the message is counted, without one it isn't. Whatever else a width costs it costs with the empty message too.
/// The port looks for byte 27 wherever it counts, so that the differences have this search in them.
fn count_works<'a>(row: &'a Row, none: &'a [u8], out: &'a Out) -> Works<'a, 7> {
    let text = row.text();
    assert_eq!(by_bytes(text), text.chars().count(), "both count characters");
    [
        Box::new(move || by_bytes(black_box(text))),
        Box::new(move || black_box(text).chars().count()),
        Box::new(move || (black_box(text).chars().count(), black_box(text).as_bytes().contains(&27))),
        Box::new(line("{s:1}", &row.record, row.length, out)),
        Box::new(line("{s}", &row.record, row.length, out)),
        Box::new(line("{s:1}", none, 1, out)),
        Box::new(line("{s}", none, 0, out)),
    ]
}

/// The characters of a text, one byte a round.
fn by_bytes(text: &str) -> usize {
    let mut count = 0;
    for byte in text.bytes() {
        count += usize::from(byte & 0xc0 != 0x80);
        // SAFETY: a comment, no instruction. The compiler can't know that, and so makes no vector code of the loop.
        unsafe { asm!("/* {0} */", inout(reg) count, options(pure, nomem, nostack, preserves_flags)) };
    }
    count
}

fn checking(out: &Out) {
    println!("| whether n bytes are UTF-8 | n | Rust's `str::from_utf8`, ns | port, ns | Rust's / port |");
    println!("|---|---|---|---|---|");
    let (rows, none) = (rows(&CHECKED, timed), timed(""));
    let works = rows.iter().map(|row| check_works(row, &none, out)).collect();
    for (row, times) in rows.iter().zip(all_in_turn(works, FINE)) {
        let [rusts, with, without] = times;
        let ports = with - without;
        println!(
            "| {} | {} | {} | {} | {} |",
            row.name,
            row.length,
            shown(rusts),
            difference(ports),
            ratio(rusts, ports)
        );
    }
    println!();
}

/// Rust's, and the lines whose difference is the port's. Every text of a record is checked, shown or not. The text is
/// the timestamp, of which `{s}` shows nothing: a template must have `{s}`, so that a message would be written as well.
fn check_works<'a>(row: &'a Row, none: &'a [u8], out: &'a Out) -> Works<'a, 3> {
    let text = row.text().as_bytes();
    [
        Box::new(move || is_utf8(black_box(text))),
        Box::new(line("{s}", &row.record, 0, out)),
        Box::new(line("{s}", none, 0, out)),
    ]
}

fn is_utf8(text: &[u8]) -> bool {
    from_utf8(text).is_ok()
}

/// A call for a line, which has so many bytes: the time of a refusal would say nothing.
fn line<'a>(template: &'static str, record: &'a [u8], length: usize, out: &'a Out) -> impl Fn() -> u64 + 'a {
    let call = move || entries::line(black_box(template.as_bytes()), 0, black_box(record), &mut out.borrow_mut());
    let answer = call();
    assert_eq!((entries::refusal_of(answer), entries::length_of(answer)), (0, length), "a line by {template}");
    call
}

fn rows(texts: &[(&'static str, &str)], record: fn(&str) -> Vec<u8>) -> Vec<Row> {
    let row = |name, length, piece| Row { name, length, record: record(&cycled(piece, length)) };
    texts.iter().flat_map(|(name, piece)| LENGTHS.map(|length| row(name, length, piece))).collect()
}

/// A record with the text as its message.
fn saying(text: &str) -> Vec<u8> {
    Record { message: text.into(), ..blank() }.write(Layout::Old)
}

/// A record with the text as its timestamp, and no message.
fn timed(text: &str) -> Vec<u8> {
    Record { timestamp: text.into(), ..blank() }.write(Layout::Old)
}

/// A record whose next text begins after 16 bytes: 15 are the head, and one is the file.
fn blank() -> Record {
    Record { level: 3, mask: FILE, file: b"x".to_vec(), ..Record::default() }
}

/// The characters of a piece over and over, as many as there is room for in so many bytes, and `x` for the rest.
pub fn cycled(piece: &str, length: usize) -> String {
    let mut text = String::new();
    for character in piece.chars().cycle() {
        if length < text.len() + character.len_utf8() {
            break;
        }
        text.push(character);
    }
    let rest = length - text.len();
    text + &"x".repeat(rest)
}

fn difference(ports: f64) -> String {
    if ports < TOLD {
        format!("< {TOLD}")
    } else {
        shown(ports)
    }
}

fn ratio(theirs: f64, ports: f64) -> String {
    if ports < TOLD {
        "-".to_string()
    } else {
        shown(theirs / ports)
    }
}
