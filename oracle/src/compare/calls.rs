//! Calls of the port's entries, each held against the answer that it owes, in memory that is looked at afterwards.

use super::lent::Lent;
use pralakuon::entries;

const TOO_LONG: u8 = 13;
const DROPPED: u8 = 17;

/// What an entry owes, whatever the room.
#[derive(Clone, Debug, PartialEq)]
pub enum Owed {
    Line(Vec<u8>),
    Refused(u8),
    /// 17, and the place that comes with it.
    Dropped(usize),
}

impl Owed {
    /// 0 for a line.
    pub fn number(&self) -> u8 {
        match self {
            Owed::Line(_) => 0,
            Owed::Refused(number) => *number,
            Owed::Dropped(_) => DROPPED,
        }
    }

    /// The answer, and what stands at the front of the buffer afterwards.
    fn in_room(&self, room: usize) -> (u64, &[u8]) {
        match self {
            Owed::Line(line) if line.len() <= room => (packed(0, line.len()), line),
            Owed::Line(line) => (packed(TOO_LONG, line.len()), &[]),
            Owed::Refused(number) => (packed(*number, 0), &[]),
            Owed::Dropped(place) => (packed(DROPPED, *place), &[]),
        }
    }

    /// On both sides of what a line needs; a refusal needs none.
    fn rooms(&self, more: usize) -> Vec<usize> {
        match self {
            Owed::Refused(_) | Owed::Dropped(_) => vec![more, 0],
            Owed::Line(line) if line.is_empty() => vec![0, more],
            Owed::Line(line) => vec![line.len() + more, line.len(), line.len() - 1, 0],
        }
    }
}

/// An answer: a refusal's number or 0, and a value.
fn packed(number: u8, value: usize) -> u64 {
    u64::from(number) | (value as u64) << 8
}

type Held = Result<(), String>;

pub fn line(template: &[u8], settings: u8, record: &[u8], owed: &Owed, more: usize) -> Held {
    hold(owed, &[template, record], more, |lent, out| entries::line(lent[0].part(), settings, lent[1].part(), out))
        .map_err(|parting| format!("line, settings {settings}, {parting}"))
}

pub fn session(sheet: &[u8], owed: &Owed, more: usize) -> Held {
    hold(owed, &[sheet], more, |lent, out| entries::session(lent[0].part(), out))
        .map_err(|parting| format!("session, {parting}"))
}

pub fn built_in(choice: [u8; 4], owed: &[u8], more: usize) -> Held {
    let [style, location, timestamp, host] = choice;
    hold(&Owed::Line(owed.to_vec()), &[], more, |_, out| entries::builtin(style, location, timestamp, host, out))
        .map_err(|parting| format!("builtin, {parting}"))
}

pub fn visible(text: &[u8], owed: Vec<u8>, more: usize) -> Held {
    hold(&Owed::Line(owed), &[text], more, |lent, out| entries::visible(lent[0].part(), out))
        .map_err(|parting| format!("visible of \"{}\", {parting}", text.escape_ascii()))
}

/// Both entries that are lent a template and no buffer: `check`, and `timestamp`, which owes a yes or no. Either owes the
/// refusal where there is one.
pub fn check(template: &[u8], settings: u8, owed: Result<bool, Owed>) -> Held {
    let answer = |named: bool| {
        owed.as_ref().map_or_else(|refused| refused.in_room(0).0, |yes| packed(0, usize::from(*yes && named)))
    };
    asked(template, settings, entries::check, answer(false))
        .map_err(|parting| format!("check, settings {settings}, {parting}"))?;
    asked(template, settings, entries::timestamp, answer(true))
        .map_err(|parting| format!("timestamp, settings {settings}, {parting}"))
}

fn asked(template: &[u8], settings: u8, entry: fn(&[u8], u8) -> u64, owed: u64) -> Held {
    let lent = Lent::holding(template);
    let answer = entry(lent.part(), settings);
    if answer != owed {
        return Err(format!("answered {} and owed {}", in_words(answer), in_words(owed)));
    }
    unchanged(&[lent], &[template])
}

fn hold(owed: &Owed, inputs: &[&[u8]], more: usize, call: impl Fn(&[Lent], &mut [u8]) -> u64) -> Held {
    let lent: Vec<Lent> = inputs.iter().map(|input| Lent::holding(input)).collect();
    for room in owed.rooms(more) {
        let mut out = Lent::blank(room);
        let answer = call(&lent, out.part_mut());
        let (number, front) = owed.in_room(room);
        if answer != number || !out.holds(front) {
            return Err(format!(
                "room {room}:\n  answered {}, buffer \"{}\"\n  owed {}, front \"{}\"",
                in_words(answer),
                out.part().escape_ascii(),
                in_words(number),
                front.escape_ascii()
            ));
        }
        unchanged(&lent, inputs)?;
    }
    Ok(())
}

fn unchanged(lent: &[Lent], inputs: &[&[u8]]) -> Held {
    if lent.iter().zip(inputs).all(|(lent, input)| lent.holds(input)) {
        Ok(())
    } else {
        Err("an input was changed".to_string())
    }
}

fn in_words(answer: u64) -> String {
    format!("refusal {} value {}", entries::refusal_of(answer), entries::length_of(answer))
}
