//! The version of the linked archive, and whether this crate was made for it.

use crate::entries;
use std::fmt;

/// A version of this crate or of the archive.
///
/// What was made for a major and a minor number works with every archive of the same two. The patch number may differ.
///
/// ```
/// use pralakuon::{archive_version, Version};
///
/// assert!(Version::HOST.works_with(archive_version()));
/// println!("this crate is {}, the archive is {}", Version::HOST, archive_version());
/// ```
#[derive(Clone, Copy, Debug, PartialEq, Eq, PartialOrd, Ord, Hash)]
pub struct Version {
    /// The first number.
    pub major: u32,
    /// The second number.
    pub minor: u32,
    /// The third number.
    pub patch: u32,
}

impl Version {
    /// The version of this crate.
    pub const HOST: Version = Version {
        major: number(env!("CARGO_PKG_VERSION_MAJOR")),
        minor: number(env!("CARGO_PKG_VERSION_MINOR")),
        patch: number(env!("CARGO_PKG_VERSION_PATCH")),
    };

    /// Whether what was made for this version works with an archive of that one.
    #[must_use]
    pub fn works_with(self, archive: Version) -> bool {
        (self.major, self.minor) == (archive.major, archive.minor)
    }

    /// The version that the archive's entry answers.
    fn answered(answer: u64) -> Version {
        let value = answer >> 8;
        let major = u32::try_from(value >> 16).unwrap_or(u32::MAX);
        Version { major, minor: (value >> 8 & 255) as u32, patch: (value & 255) as u32 }
    }
}

impl fmt::Display for Version {
    fn fmt(&self, out: &mut fmt::Formatter<'_>) -> fmt::Result {
        write!(out, "{}.{}.{}", self.major, self.minor, self.patch)
    }
}

/// The version of the archive that is linked.
#[must_use]
pub fn archive_version() -> Version {
    Version::answered(entries::version())
}

/// The number that digits say. The library's own parser is no constant function.
const fn number(digits: &str) -> u32 {
    let digits = digits.as_bytes();
    let (mut number, mut at) = (0, 0);
    while at < digits.len() {
        number = 10 * number + (digits[at] - b'0') as u32;
        at += 1;
    }
    number
}

#[cfg(test)]
mod tests {
    use super::*;

    const fn version(major: u32, minor: u32, patch: u32) -> Version {
        Version { major, minor, patch }
    }

    #[test]
    fn this_crate_has_the_version_of_its_manifest() {
        assert_eq!(Version::HOST.to_string(), env!("CARGO_PKG_VERSION"));
        assert_eq!(number("1203"), 1_203);
    }

    #[test]
    fn the_three_numbers_stand_above_the_refusal() {
        assert_eq!(Version::answered((65_536 + 256 * 20 + 3) << 8), version(1, 20, 3));
        assert_eq!(Version::answered((2 * 256) << 8), version(0, 2, 0));
        assert_eq!(Version::answered(u64::MAX), version(u32::MAX, 255, 255));
    }

    #[test]
    fn only_the_patch_number_may_differ() {
        let made_for = version(1, 2, 3);
        for archive in [made_for, version(1, 2, 0), version(1, 2, 200)] {
            assert!(made_for.works_with(archive), "{archive}");
        }
        for archive in [version(1, 3, 3), version(1, 1, 3), version(2, 2, 3), version(0, 2, 3)] {
            assert!(!made_for.works_with(archive), "{archive}");
        }
    }
}
