//! Which template and which settings a formatter works by.

use crate::template::{builtin, Style};
use crate::{Refusal, Settings};

/// The template: one of the built-in ones, or one's own.
///
/// ```
/// use pralakuon::FormatterFormat;
///
/// let chosen = FormatterFormat::from_string("oneline", true);
/// assert_eq!(chosen, Some(FormatterFormat::OneLine { with_location: true }));
/// assert_eq!(FormatterFormat::from_string("[{L}] {s}", true), None);
/// ```
#[derive(Clone, Copy, Debug, PartialEq, Eq, Hash)]
#[non_exhaustive]
pub enum FormatterFormat<'a> {
    /// Level and message; the location stands in a second line of its own.
    Default {
        /// The location is shown.
        with_location: bool,
    },
    /// Level in brackets and message; the location follows in the same line.
    OneLine {
        /// The location is shown.
        with_location: bool,
    },
    /// A template of one's own. It is read as it stands: `default` and `oneline` are text here.
    Custom(&'a str),
}

impl FormatterFormat<'static> {
    /// The built-in format of that name, if there is one.
    #[must_use]
    pub fn from_string(s: &str, with_location: bool) -> Option<FormatterFormat<'static>> {
        match s {
            "default" => Some(FormatterFormat::Default { with_location }),
            "oneline" => Some(FormatterFormat::OneLine { with_location }),
            _ => None,
        }
    }

    /// The names that [`from_string`](FormatterFormat::from_string) knows.
    ///
    /// ```
    /// use pralakuon::FormatterFormat;
    ///
    /// for name in FormatterFormat::get_options() {
    ///     assert!(FormatterFormat::from_string(name, false).is_some());
    /// }
    /// ```
    pub fn get_options() -> impl Iterator<Item = &'static str> {
        ["default", "oneline"].into_iter()
    }
}

impl Default for FormatterFormat<'_> {
    fn default() -> Self {
        FormatterFormat::Default { with_location: false }
    }
}

/// What a [`Formatter`](crate::Formatter) or a [`HostFormatter`](crate::HostFormatter) works by.
///
/// ```
/// use pralakuon::{Formatter, FormatterConfig, FormatterFormat, Level, Record, Settings};
///
/// let config = FormatterConfig::new(FormatterFormat::OneLine { with_location: false })
///     .with_timestamp()
///     .with_settings(Settings::PLAIN);
/// let record = Record::new(Level::Info, "hello").with_timestamp("0.5");
/// assert_eq!(Formatter::new(config)?.format(&record)?, "0.5 [INFO ] hello");
/// # Ok::<(), pralakuon::Refusal>(())
/// ```
#[derive(Clone, Copy, Debug, Default, PartialEq, Eq, Hash)]
#[non_exhaustive]
pub struct FormatterConfig<'a> {
    /// The template.
    pub format: FormatterFormat<'a>,
    /// A built-in template shows the time. A template of one's own says so itself, with `{t}`.
    pub is_timestamp_available: bool,
    /// Colour, whether the template is read strictly, and what widths count.
    pub settings: Settings,
}

impl<'a> FormatterConfig<'a> {
    /// By this format, without the time and without colour; its template is read as the crate reads it, and its widths
    /// count characters, as the crate's do.
    #[must_use]
    pub fn new(format: FormatterFormat<'a>) -> Self {
        FormatterConfig { format, ..FormatterConfig::default() }
    }

    /// By a template of one's own, or by the name of a built-in one, which then shows the location.
    ///
    /// ```
    /// use pralakuon::{FormatterConfig, FormatterFormat};
    ///
    /// assert_eq!(FormatterConfig::custom("[{L}] {s}").format, FormatterFormat::Custom("[{L}] {s}"));
    /// assert_eq!(FormatterConfig::custom("oneline").format, FormatterFormat::OneLine { with_location: true });
    /// ```
    #[must_use]
    pub fn custom(format: &'a str) -> Self {
        FormatterConfig::new(FormatterFormat::from_string(format, true).unwrap_or(FormatterFormat::Custom(format)))
    }

    /// With the time, for built-in templates.
    #[must_use]
    pub fn with_timestamp(mut self) -> Self {
        self.is_timestamp_available = true;
        self
    }

    /// With the location, for built-in templates.
    #[must_use]
    pub fn with_location(mut self) -> Self {
        match &mut self.format {
            FormatterFormat::Default { with_location } | FormatterFormat::OneLine { with_location } => {
                *with_location = true;
            }
            FormatterFormat::Custom(_) => {}
        }
        self
    }

    /// With these settings. A template that was to be read strictly still is, and widths that were to count places still
    /// do, so that the order of these calls does not matter.
    #[must_use]
    pub fn with_settings(mut self, settings: Settings) -> Self {
        let Settings { strict, places, .. } = self.settings;
        self.settings = settings.with_strict(settings.strict || strict).with_places(settings.places || places);
        self
    }

    /// With the template read strictly: where bytes of it would be dropped, or a parameter would be lost, it is refused.
    ///
    /// ```
    /// use pralakuon::{Formatter, FormatterConfig, Refusal};
    ///
    /// let mistyped = FormatterConfig::custom("{s} %{t}");
    /// assert!(!Formatter::new(mistyped)?.names_timestamp());
    /// assert_eq!(Formatter::new(mistyped.with_strict()), Err(Refusal::Dropped { place: 4 }));
    /// # Ok::<(), Refusal>(())
    /// ```
    #[must_use]
    pub fn with_strict(mut self) -> Self {
        self.settings.strict = true;
        self
    }

    /// With widths that count places of a screen, of which a wide character takes two, and not characters.
    ///
    /// ```
    /// use pralakuon::{Formatter, FormatterConfig, Level, Record};
    ///
    /// let config = FormatterConfig::custom("{c:8}|{s}").with_places();
    /// let record = Record::new(Level::Info, "0.412 mm");
    /// let formatter = Formatter::new(config)?;
    /// assert_eq!(formatter.format(&record.with_module_path("北壁::B3"))?, "北壁    |0.412 mm");
    /// assert_eq!(formatter.format(&record.with_module_path("wall::B3"))?, "wall    |0.412 mm");
    /// # Ok::<(), pralakuon::Refusal>(())
    /// ```
    #[must_use]
    pub fn with_places(mut self) -> Self {
        self.settings.places = true;
        self
    }

    /// The template's text, for the host's records or for the device's.
    pub(crate) fn template(&self, host: bool) -> Result<String, Refusal> {
        let timestamp = self.is_timestamp_available;
        match self.format {
            FormatterFormat::Default { with_location } => builtin(Style::Default, with_location, timestamp, host),
            FormatterFormat::OneLine { with_location } => builtin(Style::OneLine, with_location, timestamp, host),
            FormatterFormat::Custom(template) => Ok(template.to_string()),
        }
    }
}
