//! Comparison reports (document 02, E10).

use super::{info, Checks};
use crate::judge::{self, Shown};
use crate::reports::{borne_out, panics, Borne};
use crate::ruling::line::without_sequences;
use crate::ruling::{self, Names};
use crate::sheet::{Record, Sheet, COLOUR, HOST, STRAIGHT};

/// How the crate shows a line.
#[derive(Clone, Copy, Debug, PartialEq)]
pub(crate) enum Crates {
    /// So.
    Same,
    /// In other runs.
    Runs,
    /// With characters lost.
    Lost,
    Panics,
}

use Crates::{Lost, Panics, Runs, Same};

/// Template, message and line, INFO, colour off; and how the crate shows it.
pub(crate) const PLAIN: &[(&str, &str, &str, Crates)] = &[
    ("{s}", "assert\n left: `1`\nright: `2`", "assert\ndiff < left / right >\n<1\n>2", Same),
    ("[{L}] {s:bold:>90}|", "assert\n left: `1`\nright: `2`", "[INFO ] assert\ndiff < left / right >\n<1\n>2|", Same),
    ("{[{s}]%>40}|", "x\n left: `1`\nright: `2`", "         [x\ndiff < left / right >\n<1\n>2]|", Same),
    // two lines
    ("{s}", " left: `1`\nright: `2`", " left: `1`\nright: `2`", Same),
    ("{s:25}|", " left: `1`\nright: `2`", " left: `1`\nright: `2`    |", Same),
    // only the opening mark, of either line
    ("{s}", "x\n left: `\nright: `2`", "x\n left: `\nright: `2`", Panics),
    ("{s}", "x\n left: `1`\nright: `", "x\n left: `1`\nright: `", Panics),
    // a value of nothing, and a newline at the very end
    ("{s}", "x\n left: ``\nright: `2`\n", "x\ndiff < left / right >\n<\n>2", Same),
    ("{s}", "\n left: ``\nright: ``", "\ndiff < left / right >\n<\n>", Same),
    ("{s}", "x\n left: ```\nright: `` `", "x\ndiff < left / right >\n<`\n>` ", Same),
    // `\r`: at the very end it stays, before a newline it goes
    ("{s}", "x\n left: `1`\nright: `2`\r", "x\n left: `1`\nright: `2`\r", Same),
    ("{s}", "x\n left: `1`\r\nright: `2`\r\n", "x\ndiff < left / right >\n<1\n>2", Same),
    ("{s}", "a\r\nb\n left: `x`\nright: `x`", "a\nb\ndiff < left / right >\n<x\n>x", Same),
    ("{s}", "a\r\r\n\n left: `x`\nright: `x`", "a\r\n\ndiff < left / right >\n<x\n>x", Same),
    ("{s}", "x\n left: `1`\r\r\nright: `2`", "x\n left: `1`\r\r\nright: `2`", Same),
    // a line more, and one between
    ("{s}", "x\n left: `1`\nright: `2`\n\n", "x\n left: `1`\nright: `2`\n\n", Same),
    ("{s}", "x\n left: `1`\n\nright: `2`", "x\n left: `1`\n\nright: `2`", Same),
    // both values stand whole
    ("{s}", "x\n left: `é`\nright: `ĩ`", "x\ndiff < left / right >\n<é\n>ĩ", Same),
    ("{s}", "x\n left: `èè`\nright: `èéè`", "x\ndiff < left / right >\n<èè\n>èéè", Lost),
    ("{s}", "x\n left: `渦渦é`\nright: `温`", "x\ndiff < left / right >\n<渦渦é\n>温", Lost),
    ("{s}", "x\n left: `éé温`\nright: `温渦é`", "x\ndiff < left / right >\n<éé温\n>温渦é", Panics),
];

/// Template, message and the two lines of the values, with colour on; and how the crate shows it. The head is one line.
pub(crate) const COLOURED: &[(&str, &str, &str, Crates)] = &[
    (
        "{s}",
        "x\n left: `12`\nright: `13`",
        "\x1b[31m<\x1b[0m\x1b[31m1\x1b[0m\x1b[1;31m2\x1b[0m\n\x1b[32m>\x1b[0m\x1b[32m1\x1b[0m\x1b[1;32m3\x1b[0m",
        Same,
    ),
    // a beginning and an end
    (
        "{s}",
        "x\n left: `1.25 mm`\nright: `1.5 mm`",
        "\x1b[31m<\x1b[0m\x1b[31m1.\x1b[0m\x1b[1;31m2\x1b[0m\x1b[31m5 mm\x1b[0m\n\
         \x1b[32m>\x1b[0m\x1b[32m1.\x1b[0m\x1b[32m5 mm\x1b[0m",
        Same,
    ),
    // nothing is left to share at the end
    (
        "{s}",
        "x\n left: `aaa`\nright: `aa`",
        "\x1b[31m<\x1b[0m\x1b[31maa\x1b[0m\x1b[1;31ma\x1b[0m\n\x1b[32m>\x1b[0m\x1b[32maa\x1b[0m",
        Same,
    ),
    // in whole characters
    (
        "{s}",
        "x\n left: `é`\nright: `ĩ`",
        "\x1b[31m<\x1b[0m\x1b[1;31mé\x1b[0m\n\x1b[32m>\x1b[0m\x1b[1;32mĩ\x1b[0m",
        Same,
    ),
    // nothing is shared here
    (
        "{s}",
        "x\n left: `ab`\nright: `ba`",
        "\x1b[31m<\x1b[0m\x1b[1;31mab\x1b[0m\n\x1b[32m>\x1b[0m\x1b[1;32mba\x1b[0m",
        Runs,
    ),
    // a reset in a value
    (
        "{s:red}",
        "x\n left: `a\x1b[0mb`\nright: `a`",
        "\x1b[31m<\x1b[0m\x1b[31ma\x1b[0m\x1b[1;31m\x1b[0m\x1b[1;31mb\x1b[0m\n\x1b[32m>\x1b[0m\x1b[32ma\x1b[0m",
        Same,
    ),
    // both empty, and a head that is
    ("{s}", "x\n left: ``\nright: ``", "\x1b[31m<\x1b[0m\n\x1b[32m>\x1b[0m", Same),
    ("{s}", "\n left: `a`\nright: `a`", "\x1b[31m<\x1b[0m\x1b[31ma\x1b[0m\n\x1b[32m>\x1b[0m\x1b[32ma\x1b[0m", Same),
];

/// What stands between the head and the values.
const BETWEEN: &str = "\n\x1b[1mdiff\x1b[0m \x1b[31m< left\x1b[0m / \x1b[32mright >\x1b[0m\n";

/// What is visible of a padded line of the crate and here, in bytes.
const PADDED: (&str, &str, usize, usize) = ("{{s}%bold%90}", "x\n left: `ab`\nright: `ba`", 50, 58);

impl Checks {
    /// What is ruled, and how the crate shows it.
    pub(super) fn reports(&mut self) {
        for (template, message, expected, crates) in PLAIN {
            self.reported(0, template, &saying(message), expected, *crates);
            let host = Record { source: HOST, ..saying(message) };
            self.reported(0, "{s:9}", &host, message, Same);
            self.reported(COLOUR, "{s:red}", &host, message, Same);
        }
        for (template, message, values, crates) in COLOURED {
            let (head, _) = message.split_once('\n').expect("a head");
            let expected = format!("\x1b[1m{head}\x1b[0m{BETWEEN}{values}");
            self.reported(COLOUR, template, &saying(message), &expected, *crates);
            let print = Record { level: 0, ..saying(message) };
            self.reported(COLOUR, "[{L}] {s:9}", &print, &expected, *crates);
        }
        self.padded();
    }

    fn reported(&mut self, settings: u8, template: &str, record: &Record, expected: &str, crates: Crates) {
        let printed = expected.to_string() + "\n";
        for mode in [0, STRAIGHT] {
            let sheet = sheet(settings | mode, template, record);
            self.same(template, printed.clone().into_bytes(), ruling::printed(&sheet.write()));
        }
        self.same(template, Some(crates), shown_by_the_crate(settings, template, record));
    }

    /// A coloured group counts what it inserts, which is more with more runs.
    fn padded(&mut self) {
        let (template, message, theirs, ours) = PADDED;
        let visible =
            |line: &[u8]| without_sequences(std::str::from_utf8(line).expect("a line")).trim_end_matches('\n').len();
        let sheet = sheet(COLOUR, template, &saying(message));
        self.same(template, ours, visible(&ruling::printed(&sheet.write())));
        self.same(template, theirs, visible(&judge::answer_alone(&sheet).printed()));
        self.same(template, Some(Runs), shown_by_the_crate(COLOUR, template, &saying(message)));
    }
}

fn saying(message: &str) -> Record {
    Record { message: message.into(), ..info() }
}

fn sheet(settings: u8, template: &str, record: &Record) -> Sheet {
    Sheet { settings, template: template.into(), records: vec![record.clone()] }
}

/// None where it parts from the ruling otherwise.
fn shown_by_the_crate(settings: u8, template: &str, record: &Record) -> Option<Crates> {
    judge::set_colour(settings & COLOUR != 0);
    let segments = ruling::template(template.as_bytes(), Names::All).expect("read").segments;
    let shown = judge::shown(&judge::read(template)?.ok()?, record);
    let line = ruling::line(&segments, record, settings);
    match borne_out(&shown, &segments, record, settings, &line) {
        Some(Borne::Same) => Some(Same),
        Some(Borne::Visible | Borne::Runs) => Some(Runs),
        Some(Borne::Lost) => Some(Lost),
        None => panics(record).filter(|_| shown == Shown::Panic).map(|_| Panics),
    }
}
