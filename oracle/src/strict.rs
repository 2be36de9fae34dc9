//! What the ruling says of a template's unused bytes and parameters, judged by the crate. The crate tells nobody what it
//! drops or loses. But its segments can be held against the template, and it can be asked about the template changed.

use crate::judge;
use crate::ruling::{self, Names, Reading};
use crate::spelling::spells;
use crate::stub::format::Refusal;
use crate::tree::{Format, Segment};
use std::ops::Range;

/// An error where the crate does not bear the ruling by its own names out. It must have read the template, and as these
/// segments.
pub fn judged(template: &str, Reading { segments, unused }: &Reading) -> Result<(), String> {
    let lost = || unused.lost.iter().flat_map(|lost| [lost.word.clone(), lost.separator..lost.separator + 1]);
    // Nothing else is unused: what is left is a spelling of what was read.
    let used = without(template, unused.dropped.iter().cloned().chain(lost()))?;
    expect(spells(&used, segments), "more is unused than this leaves", &used)?;
    // All of it is unused: the crate reads the same without it.
    let free = || unused.dropped.iter().map(|stretch| freely_changed(template, stretch));
    let kept = without(template, free().chain(lost()))?;
    expect(is_read_as(&kept, segments), "otherwise read, without what is unused", &kept)?;
    let refused = ruling::template(kept.as_bytes(), Names::Crates).map(|reading| reading.unused.place().is_some());
    let must_be = kept.len() > used.len();
    expect(refused == Ok(must_be), "in the strict edition, without what is unused", &kept)?;
    // What is dropped is not read: it may as well stand there twice, right behind itself or apart.
    for (stretch, between) in free().flat_map(|stretch| [(stretch.clone(), ""), (stretch, " ")]) {
        let twice = doubled(template, &stretch, between);
        expect(is_read_as(&twice, segments), "otherwise read, with dropped bytes twice", &twice)?;
    }
    // What is lost is read, as a parameter: standing there twice it is refused.
    for lost in &unused.lost {
        let parameter = format!("{{s:{}}}", &template[lost.word.clone()]);
        expect(is_one_parameter(&parameter), "no parameter", &parameter)?;
        let twice = doubled(template, &lost.word, &template[lost.separator..=lost.separator]);
        let refused = matches!(judge::read(&twice), Some(Err(Refusal::Failure)));
        expect(refused, "not refused, with a lost parameter twice", &twice)?;
    }
    Ok(())
}

fn expect(holds: bool, otherwise: &str, template: &str) -> Result<(), String> {
    holds.then_some(()).ok_or_else(|| format!("unused\n  {otherwise}: {template:?}"))
}

/// An error where a byte is to be taken out twice.
fn without(template: &str, unused: impl Iterator<Item = Range<usize>>) -> Result<String, String> {
    let mut bytes: Vec<Option<u8>> = template.bytes().map(Some).collect();
    for place in unused.flatten() {
        expect(bytes[place].take().is_some(), "a byte is unused twice", template)?;
    }
    Ok(String::from_utf8(bytes.into_iter().flatten().collect()).expect("whole characters are unused"))
}

/// The stretch, but for a brace behind a backslash in a content, which stays. The two go together in the search for the closing brace,
/// and without this brace the backslash would go with that one.
fn freely_changed(template: &str, stretch: &Range<usize>) -> Range<usize> {
    let escaped = template[..stretch.start].ends_with('\\') && stretch.end < template.len();
    stretch.start + usize::from(escaped)..stretch.end
}

fn doubled(template: &str, part: &Range<usize>, between: &str) -> String {
    [&template[..part.end], between, &template[part.start..]].concat()
}

fn is_read_as(template: &str, segments: &[Segment]) -> bool {
    matches!(judge::read(template), Some(Ok(read)) if read.segments() == segments)
}

/// Whether the crate reads a specifier with a format of one word.
fn is_one_parameter(template: &str) -> bool {
    let Some(Ok(read)) = judge::read(template) else { return false };
    matches!(&read.segments()[..], [only] if only.format != Format::default() && spells(template, std::slice::from_ref(only)))
}
