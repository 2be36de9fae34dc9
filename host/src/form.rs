//! The two layouts of a record: with the serial of a head, and without.

use crate::Settings;

/// How records are laid out. Bit 8 of a settings byte says so, in a sheet and in a line call alike: it tells layouts
/// apart and not how lines look, and so it is none of [`Settings`].
#[derive(Clone, Copy, Debug, Default, PartialEq, Eq, Hash)]
pub(crate) enum Form {
    /// Four texts: file, module, timestamp, message.
    #[default]
    Old,
    /// A fifth text behind them, the head's serial, and its length behind theirs.
    WithHeads,
}

impl Form {
    const BIT: u8 = 8;

    /// With heads, or without.
    pub(crate) const fn by(heads: bool) -> Form {
        if heads {
            Form::WithHeads
        } else {
            Form::Old
        }
    }

    pub(crate) const fn has_heads(self) -> bool {
        matches!(self, Form::WithHeads)
    }

    /// How many texts a record has.
    pub(crate) const fn texts(self) -> usize {
        4 + self.has_heads() as usize
    }

    /// Bytes before the texts: source, level, mask, u32 line, a u16 length of each text.
    pub(crate) const fn numbers(self) -> usize {
        3 + 4 + 2 * self.texts()
    }

    /// The settings byte of a call or a sheet with records of this form.
    pub(crate) fn byte(self, settings: Settings) -> u8 {
        settings.byte() | if self.has_heads() { Form::BIT } else { 0 }
    }

    /// What a settings byte says; one with an unknown bit says nothing.
    pub(crate) fn of_byte(byte: u8) -> Option<(Form, Settings)> {
        let settings = Settings::from_byte(byte & !Form::BIT)?;
        Some((Form::by(byte & Form::BIT != 0), settings))
    }
}

#[cfg(test)]
mod tests {
    use super::*;

    #[test]
    fn numbers_stand_before_four_texts_or_five() {
        assert_eq!((Form::Old.texts(), Form::Old.numbers()), (4, 15));
        assert_eq!((Form::WithHeads.texts(), Form::WithHeads.numbers()), (5, 17));
    }

    #[test]
    fn a_settings_byte_says_form_and_settings() {
        for byte in 0..=255 {
            let told = Form::of_byte(byte);
            assert_eq!(told.map(|(form, settings)| form.byte(settings)), (byte < 32).then_some(byte));
            assert_eq!(told.map(|(form, _)| form.has_heads()), (byte < 32).then_some(byte & 8 != 0));
        }
    }
}
