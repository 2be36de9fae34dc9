//! Makes the stored list of the crate's answers; README.md says where each byte of it stands.

pub(crate) mod cases;
mod counts;
mod heads;
mod letters;
mod limits;
mod messages;
mod places;
pub(crate) mod random;
mod reports;
mod strict;

use crate::head;
use crate::judge::{self, Answer, Shown};
use crate::kelvin;
use crate::places::{answered, asked};
use crate::reports::{borne_out, panics, Borne};
use crate::ruling::{self, Names};
use crate::sheet::{Record, Sheet, COLOUR, PLACES, STRAIGHT};
use crate::VERSIONS;
use cases::Case;
use std::io;

pub const SEED: u64 = 1;

/// The number of a case in the strict edition whose template is not used up.
pub(crate) const DROPPED: u8 = 17;

/// The number of a case with a listed difference that is no limit of the port.
pub(crate) const LISTED: u8 = 255;

pub fn run(file: &str, seed: u64) -> io::Result<()> {
    let cases = cases::all(seed);
    let mut list = header(seed, cases.len()).into_bytes();
    let mut counts = counts::Counts::default();
    for case in &cases {
        let answer = answer(&case.sheet);
        check(case, &answer);
        let (sheet, output) = (case.sheet.write(), answer.printed());
        counts.add(case, &answer, is_ruled(&case.sheet));
        list.push(case.number);
        for part in [sheet, output] {
            list.extend((part.len() as u32).to_le_bytes());
            list.extend(part);
        }
    }
    std::fs::write(file, &list)?;
    counts.print();
    println!("{} cases, {} bytes", cases.len(), list.len());
    Ok(())
}

/// The crate's answer. A sheet that is not laid out isn't put to it.
fn answer(sheet: &Sheet) -> Answer {
    if Sheet::read(&sheet.write()).is_none() {
        return Answer::Refused(15);
    }
    match ruling::template(&sheet.template, Names::All) {
        Ok(reading) if is_ruled(sheet) => {
            let line = |record| Shown::Line(ruling::line(&reading.segments, record, sheet.settings).text.into_bytes());
            Answer::Read(sheet.records.iter().map(line).collect())
        }
        _ => {
            let by_the_crates_names = head::asked(sheet).expect("a stand-in for `d`");
            answered(sheet, judge::answer_alone(&asked(&by_the_crates_names)))
        }
    }
}

/// Straight mode is the port's own: where a prefix may be inserted, the lines of a template that is read are ruled. So are
/// comparison reports that the crate shows otherwise for a listed reason.
fn is_ruled(sheet: &Sheet) -> bool {
    let straight = COLOUR | STRAIGHT;
    let read = ruling::template(&sheet.template, Names::All).is_ok();
    read && (sheet.settings & straight == straight || is_shown_otherwise(sheet))
}

/// Whether the crate shows a comparison report of the sheet in other runs, with characters lost, or panics on it or on a bare
/// mark; and every other record as it is ruled.
fn is_shown_otherwise(sheet: &Sheet) -> bool {
    if !sheet.records.iter().all(|record| ruling::record(record, sheet.layout()).is_none()) {
        return false;
    }
    let Some(sheet) = head::asked(sheet).map(|sheet| asked(&sheet)) else { return false };
    let (Ok(reading), Answer::Read(lines)) =
        (ruling::template(&sheet.template, Names::Crates), judge::answer_alone(&sheet))
    else {
        return false;
    };
    let borne = |(record, shown): (&Record, &Shown)| {
        let settings = sheet.settings & !PLACES;
        let line = ruling::line(&reading.segments, record, settings);
        let panics = *shown == Shown::Panic && panics(record).is_some();
        borne_out(shown, &reading.segments, record, settings, &line).or(panics.then_some(Borne::Lost))
    };
    let all: Option<Vec<Borne>> = sheet.records.iter().zip(&lines).map(borne).collect();
    all.map_or(false, |all| all.iter().any(|borne| *borne != Borne::Same))
}

fn header(seed: u64, count: usize) -> String {
    format!(
        "Answers of defmt-decoder 1.1.0, module log::format, to session sheets.
Made by: oracle/sample {seed}
Run with: {VERSIONS}
Cases: {count}
After the first empty line, for each case: u8 N; u32 length and a session sheet; u32 length and the output. Little-endian.
Output: what the port's program prints for the sheet if its lines are the crate's: each line and a newline, or `! 3` or
`! 4` and a newline for the sheet; `panic` and a newline where the crate panics; `! 2`, `! 12` and `! 14` where it cannot be asked.
The crate knows no heads. Where `d` may be tried as a name it is asked with F or m for it, and with the serial as file or module.
It counts characters. Where the settings byte has bit 16, places, it is asked with every wide character twice, and the output has
them once. It has no straight mode: where the settings byte has bits 1 and 2, the output is ruled. So it is where the crate lays out a
comparison report in other colour runs, loses characters of its values, or panics on it. `! 15`: the sheet is not laid out.
N 0: the port prints the same.
N 1, 2, 5 to 9, 11, 12: the port refuses with that number; the output is the crate's, which knows no such limit.
N 17: the settings byte has bit 4, the strict edition, and the port refuses; the output is the crate's, which knows one edition.
N 255: another listed difference: a present empty file with {{f}} (the crate panics), a width with colour sequences above
65,535 (it panics), a colour word with the Kelvin sign (a k to it).

"
    )
}

/// A case of the stored list.
pub(crate) struct Stored<'a> {
    pub number: u8,
    pub sheet: &'a [u8],
    pub output: &'a [u8],
}

pub(crate) fn stored(list: &[u8]) -> Vec<Stored<'_>> {
    let head = list.windows(2).position(|two| two == b"\n\n").map_or(0, |end| end + 2);
    let (mut rest, mut all) = (&list[head..], Vec::new());
    while let Some((&number, after)) = rest.split_first() {
        let (sheet, after) = sized(after);
        let (output, after) = sized(after);
        all.push(Stored { number, sheet, output });
        rest = after;
    }
    all
}

fn sized(bytes: &[u8]) -> (&[u8], &[u8]) {
    let (length, rest) = bytes.split_at(4);
    rest.split_at(u32::from_le_bytes(length.try_into().unwrap()) as usize)
}

/// A case that is to be printed alike must be within every limit, and the ruling must say the same; a list with a wrong case
/// is not written.
fn check(case: &Case, answer: &Answer) {
    let name = || String::from_utf8_lossy(&case.sheet.template).into_owned();
    if case.number != LISTED {
        let due = if case.number == 0 { answer.printed() } else { format!("! {}\n", case.number).into_bytes() };
        assert!(ruling::printed(&case.sheet.write()) == due, "ruled otherwise: {:?}", name());
    }
    let strictly = place(&case.sheet).is_some();
    assert_eq!(strictly, case.number == DROPPED, "in its edition: {:?}", name());
    if case.number == 0 {
        assert!(within_sizes(&case.sheet, answer), "a size is crossed: {:?}", name());
        assert!(!answer.panicked(), "the crate panics: {:?}", name());
        assert!(!is_listed(&case.sheet), "a listed difference: {:?}", name());
        let known = case.known || !may_cross(&case.sheet.template);
        assert!(known, "may cross a limit of the template: {:?}", name());
    } else {
        assert_eq!(case.sheet.records.len(), 1, "a difference stands alone: {:?}", name());
    }
}

/// Where the sheet's template is refused with 17, which the crate must bear out.
pub(crate) fn place(sheet: &Sheet) -> Option<usize> {
    let place = ruling::template(&sheet.template, Names::All).ok().filter(|_| sheet.strict())?.unused.place();
    let asked = head::asked(sheet).expect("a stand-in for `d`").template;
    let reading = ruling::template(&asked, Names::Crates).expect("read as the other");
    let template = std::str::from_utf8(&asked).expect("what is read is UTF-8");
    crate::strict::judged(template, &reading).expect("judged by the crate");
    assert_eq!(place, reading.unused.place(), "with a stand-in: {template:?}");
    place
}

/// Sizes of document 01: template, fields, lines, the sheet; and records that it accepts, or that the crate's types cannot
/// hold.
fn within_sizes(sheet: &Sheet, answer: &Answer) -> bool {
    let record = |r: &Record| matches!(ruling::record(r, sheet.layout()), None | Some(14));
    let line = |shown: &Shown| !matches!(shown, Shown::Line(line) if line.len() > 65536);
    let lines = match answer {
        Answer::Read(lines) => lines.iter().all(line),
        Answer::Refused(number) => [3, 4, 15].contains(number),
        Answer::Panic => false,
    };
    sheet.template.len() <= 1024 && sheet.records.iter().all(record) && lines && sheet.write().len() <= 65536
}

/// A template that might be refused with 5 to 9: too wide a net on purpose, but nothing slips through.
fn may_cross(template: &[u8]) -> bool {
    let Ok(text) = std::str::from_utf8(template) else { return true };
    let backslash = text.ends_with('\\');
    let wide = text.split(|c: char| !c.is_ascii_digit()).any(|digits| digits.trim_start_matches('0').len() > 2);
    let long = text.contains(&"f".repeat(256));
    backslash || wide || long || depth(text) > 8 || may_have_too_many(text)
}

/// Braces open at once, counted so that no closed brace stands deeper.
fn depth(text: &str) -> usize {
    if text.contains('\\') {
        return text.matches('{').count();
    }
    let (mut open, mut most) = (0usize, 0);
    for c in text.chars() {
        match c {
            '{' => open += 1,
            '}' => open = open.saturating_sub(1),
            _ => {}
        }
        most = most.max(open);
    }
    most
}

/// Of a template that is read the segments are counted; of a refused one the places where one may begin.
fn may_have_too_many(text: &str) -> bool {
    let dump = judge::segments(text.as_bytes());
    if dump == "3" {
        let separators = text.matches([':', '%']).count();
        return 1 + 4 * text.matches('{').count() + 3 * separators > 64;
    }
    dump.matches(';').count() > 64
}

/// The difference of `LISTED` that doesn't show as a panic.
fn is_listed(sheet: &Sheet) -> bool {
    std::str::from_utf8(&sheet.template).map_or(false, kelvin::decides)
}
