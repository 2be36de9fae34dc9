//! `{d}`, the head's serial (document 02, E7). `d` is a name here and none to the crate. But whoever reads a template treats
//! all names alike, and `{F}` and `{m}` show a text as it stands, as `{d}` does. So the crate can be asked with one of these
//! in place of `d`, and with the serial as its text.

use crate::ruling::line::NO_HEAD;
use crate::ruling::{self, Names};
use crate::sheet::{Record, Sheet, FILE, MODULE};
use crate::tree::{names, Kind, Segment, Specifier};
use std::str::from_utf8;

/// A name of the crate's that stands in for `d`.
#[derive(Clone, Copy, Debug, PartialEq)]
pub enum StandIn {
    File,
    Module,
}

impl StandIn {
    /// One by which lines can be asked for: the template shows nothing else of its text, and no text of the template changes
    /// with it. Of a template that is refused, any.
    pub fn for_lines(template: &str) -> Option<StandIn> {
        let segments = |template: &str| ruling::parse(template.as_bytes(), Names::All).map(|reading| reading.segments);
        let fits = |stand_in: &StandIn| {
            let (Ok(ours), Ok(others)) = (segments(template), segments(&stand_in.put_in(template))) else {
                return true;
            };
            !names(&ours, &|specifier| stand_in.is_shown_by(specifier))
                && stand_in.renamed(&ours, &str::to_string) == others
        };
        [StandIn::File, StandIn::Module].into_iter().find(fits)
    }

    fn is_shown_by(self, specifier: Specifier) -> bool {
        match self {
            StandIn::File => matches!(specifier, Specifier::FileName(_) | Specifier::FilePath),
            StandIn::Module => matches!(specifier, Specifier::CrateName | Specifier::ModulePath),
        }
    }

    fn name(self) -> &'static str {
        match self {
            StandIn::File => "F",
            StandIn::Module => "m",
        }
    }

    fn specifier(self) -> Specifier {
        match self {
            StandIn::File => Specifier::FilePath,
            StandIn::Module => Specifier::ModulePath,
        }
    }

    /// The template with this name wherever `d` may be tried as one.
    pub fn put_in(self, template: &str) -> String {
        let mut text = template.to_string();
        for at in places(template) {
            text.replace_range(at..at + 1, self.name());
        }
        text
    }

    /// The record with what `{d}` shows of it as this name's text.
    pub fn lent(self, record: &Record) -> Record {
        let serial = record.head().unwrap_or(NO_HEAD.as_bytes()).to_vec();
        match self {
            StandIn::File => Record { mask: record.mask | FILE, file: serial, ..record.clone() },
            StandIn::Module => Record { mask: record.mask | MODULE, module: serial, ..record.clone() },
        }
    }

    /// Whether these are the segments of a template that has `others` with this name put in. Texts may have changed: a `d`
    /// that is tried as a name may be text in the end.
    #[cfg(feature = "port")]
    pub fn is_read_as(self, segments: &[Segment], others: &[Segment]) -> bool {
        let text = |text: &str| text.replace('d', self.name());
        self.renamed(segments, &text) == self.renamed(others, &text)
    }

    fn renamed(self, segments: &[Segment], text: &dyn Fn(&str) -> String) -> Vec<Segment> {
        let renamed = |segment: &Segment| match &segment.kind {
            Kind::Text(own) => Kind::Text(text(own)),
            Kind::Specifier(Specifier::HeadSerial) => Kind::Specifier(self.specifier()),
            Kind::Specifier(specifier) => Kind::Specifier(*specifier),
            Kind::Group(members) => Kind::Group(self.renamed(members, text)),
        };
        segments.iter().map(|segment| Segment { kind: renamed(segment), format: segment.format.clone() }).collect()
    }
}

/// Whether a `d` may be tried as a name somewhere in the template.
pub fn is_tried(template: &str) -> bool {
    places(template).next().is_some()
}

/// Where a `d` is a whole run of letters behind something that a name may follow.
fn places(template: &str) -> impl Iterator<Item = usize> + '_ {
    let follows = |at: usize| template[..at].ends_with(['{', ':', '%']);
    let ends = |at: usize| !template[at + 1..].starts_with(char::is_alphabetic);
    template.match_indices('d').map(|(at, _)| at).filter(move |at| follows(*at) && ends(*at))
}

/// The sheet as the crate is asked about it: with a stand-in where the template has a `d` that may be tried as a name. None
/// where there is none for its lines.
pub fn asked(sheet: &Sheet) -> Option<Sheet> {
    let Some(template) = from_utf8(&sheet.template).ok().filter(|template| is_tried(template)) else {
        return Some(sheet.clone());
    };
    let stand_in = StandIn::for_lines(template)?;
    let records = sheet.records.iter().map(|record| stand_in.lent(record)).collect();
    Some(Sheet { template: stand_in.put_in(template).into_bytes(), records, ..sheet.clone() })
}
