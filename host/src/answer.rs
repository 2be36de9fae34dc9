//! Calls of the archive, and what its answers say.

use crate::{archive_version, entries, Refusal, Version};

/// What the archive answers to a call: a length, or why there is none. An archive of another version is not called: its
/// entries may take other things.
pub(crate) fn asked(call: impl FnOnce() -> u64) -> Result<usize, Refusal> {
    let archive = archive_version();
    if Version::HOST.works_with(archive) {
        settle(call())
    } else {
        Err(Refusal::OtherVersion { archive })
    }
}

fn settle(answer: u64) -> Result<usize, Refusal> {
    let (number, length) = (entries::refusal_of(answer), entries::length_of(answer));
    if number == 0 {
        return Ok(length);
    }
    Err(match Refusal::from_number(number) {
        Some(Refusal::LineTooLong { .. }) => Refusal::LineTooLong { needed: length },
        Some(Refusal::Dropped { .. }) => Refusal::Dropped { place: entries::place_of(answer) },
        Some(refusal) => refusal,
        None => Refusal::Unknown { number },
    })
}

#[cfg(test)]
mod tests {
    use super::*;

    #[test]
    fn every_answer_is_a_length_or_an_error() {
        assert_eq!(settle(5 << 8), Ok(5));
        assert_eq!(settle(5 << 8 | 13), Err(Refusal::LineTooLong { needed: 5 }));
        assert_eq!(settle(1_023 << 8 | 17), Err(Refusal::Dropped { place: 1_023 }));
        for number in 1..=255 {
            let refusal = settle(number.into()).unwrap_err();
            assert_eq!(refusal.number(), number);
            // 10 is no longer given, and 16 not yet.
            let is_unknown = number == 10 || number == 16 || number > 17;
            assert_eq!(matches!(refusal, Refusal::Unknown { .. }), is_unknown, "{refusal}");
        }
    }
}
