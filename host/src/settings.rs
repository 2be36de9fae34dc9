//! Whether lines are coloured, how colour and columns get along, which edition of the template rules holds, and what
//! widths count.

/// Whether lines are coloured, whether their columns stay straight then, whether templates are read strictly, and whether
/// widths count places or characters. The default is [`PLAIN`](Settings::PLAIN).
///
/// ```
/// use pralakuon::{Formatter, FormatterConfig, Level, Record, Settings};
///
/// let config = FormatterConfig::custom("{L} {s}").with_settings(Settings::STRAIGHT_COLOUR);
/// let line = Formatter::new(config)?.format(&Record::new(Level::Error, "reading lost"))?;
/// assert_eq!(line, "\x1b[31mERROR\x1b[0m reading lost");
///
/// assert_eq!(Settings::PLAIN.with_colour(true).with_straight(true), Settings::STRAIGHT_COLOUR);
/// # Ok::<(), pralakuon::Refusal>(())
/// ```
#[derive(Clone, Copy, Debug, Default, PartialEq, Eq, Hash)]
#[non_exhaustive]
pub struct Settings {
    /// Colours and styles are written.
    pub colour: bool,
    /// Colour doesn't count against the padding of a group. Without colour it changes nothing.
    pub straight: bool,
    /// A template of which bytes would be dropped or a parameter would be lost is refused
    /// ([`Dropped`](crate::Refusal::Dropped)). All other templates are read as they are without it, and no line changes.
    pub strict: bool,
    /// Widths count places of a screen: two for a wide character, which is one of East Asian Width W or F in Unicode
    /// 17.0.0, and one for each other. Without it each character counts one, as in the crate.
    pub places: bool,
}

impl Settings {
    /// No colour.
    pub const PLAIN: Settings = Settings { colour: false, straight: false, strict: false, places: false };
    /// Colour as the crate has it: what it writes into a padded group is taken off the padding, and columns slide.
    pub const CRATE_COLOUR: Settings = Settings::PLAIN.with_colour(true);
    /// Colour with straight columns: without its colour the line is the plain one.
    pub const STRAIGHT_COLOUR: Settings = Settings::CRATE_COLOUR.with_straight(true);

    const COLOUR_BIT: u8 = 1;
    const STRAIGHT_BIT: u8 = 2;
    const STRICT_BIT: u8 = 4;
    const PLACES_BIT: u8 = 16;

    /// With colours and styles, or without.
    #[must_use]
    pub const fn with_colour(mut self, colour: bool) -> Self {
        self.colour = colour;
        self
    }

    /// With straight columns, or with the crate's.
    #[must_use]
    pub const fn with_straight(mut self, straight: bool) -> Self {
        self.straight = straight;
        self
    }

    /// With templates read strictly, or as the crate reads them.
    ///
    /// ```
    /// use pralakuon::{check, Refusal, Settings};
    ///
    /// assert_eq!(check(b"{s} %{t}", Settings::PLAIN), Ok(()));
    /// assert_eq!(check(b"{s} %{t}", Settings::PLAIN.with_strict(true)), Err(Refusal::Dropped { place: 4 }));
    /// ```
    #[must_use]
    pub const fn with_strict(mut self, strict: bool) -> Self {
        self.strict = strict;
        self
    }

    /// With widths that count places, two for a wide character, or with the crate's, which count characters.
    ///
    /// ```
    /// use pralakuon::{line, Level, Record, Refusal, Settings};
    ///
    /// fn shown(settings: Settings, site: &str) -> Result<String, Refusal> {
    ///     let mut out = [0; 80];
    ///     let length = line(b"{s:6}|", settings, &Record::new(Level::Info, site), &mut out)?;
    ///     Ok(String::from_utf8_lossy(&out[..length]).into_owned())
    /// }
    ///
    /// // The name has three characters, and takes four places.
    /// assert_eq!(shown(Settings::PLAIN.with_places(true), "壁B3")?, "壁B3  |");
    /// assert_eq!(shown(Settings::PLAIN, "壁B3")?, "壁B3   |");
    /// # Ok::<(), Refusal>(())
    /// ```
    #[must_use]
    pub const fn with_places(mut self, places: bool) -> Self {
        self.places = places;
        self
    }

    /// The settings byte of a line call. That of a sheet has the bit 8 besides where its records are laid out with heads
    /// ([`Sheet::heads`](crate::Sheet::heads)), which changes nothing of how lines look and is no setting here.
    #[must_use]
    pub fn byte(self) -> u8 {
        u8::from(self.colour) * Self::COLOUR_BIT
            + u8::from(self.straight) * Self::STRAIGHT_BIT
            + u8::from(self.strict) * Self::STRICT_BIT
            + u8::from(self.places) * Self::PLACES_BIT
    }

    /// The settings of a byte; one with another bit has none, and so has one that says how records are laid out (8).
    ///
    /// ```
    /// use pralakuon::Settings;
    ///
    /// assert_eq!(Settings::from_byte(3), Some(Settings::STRAIGHT_COLOUR));
    /// assert_eq!(Settings::from_byte(7), Some(Settings::STRAIGHT_COLOUR.with_strict(true)));
    /// assert_eq!(Settings::from_byte(19), Some(Settings::STRAIGHT_COLOUR.with_places(true)));
    /// assert_eq!(Settings::from_byte(8), None);
    /// assert_eq!(Settings::from_byte(32), None);
    /// ```
    #[must_use]
    pub fn from_byte(byte: u8) -> Option<Settings> {
        let has = |bit| byte & bit != 0;
        let settings = Settings {
            colour: has(Self::COLOUR_BIT),
            straight: has(Self::STRAIGHT_BIT),
            strict: has(Self::STRICT_BIT),
            places: has(Self::PLACES_BIT),
        };
        (settings.byte() == byte).then_some(settings)
    }
}
