//! Document 01's examples, and letters, strict templates, heads, comparison reports and places as document 02 decides them
//! (E3, E5, E7, E10, E14), held against the crate. Expected values are typed from the documents; where the port parts from the
//! crate, the crate's own answer stands here and says so.

pub(crate) mod heads;
pub(crate) mod places;
pub(crate) mod reports;

use crate::judge::{self, Answer, Shown};
use crate::ruling::{self, Names};
use crate::sheet::{Record, Sheet, COLOUR, DEVICE, FILE, HOST, LINE, MODULE, UNKNOWN};
use crate::strict;
use crate::stub::format::{self, Template};

/// Templates read with INFO, message `hello`, no other field, colour off.
pub(crate) const PLAIN: &[(&str, &str)] = &[
    ("[{L}] {s}", "[INFO ] hello"),
    ("{L:07} {s}", "INFO000 hello"),
    ("{L:^7} {s}", " INFO   hello"),
    ("{s:bold:underline:italic}", "hello"),
    ("{s}%x", "hello"),
    ("{s junk}", "hello"),
    ("{s and {L}}", "hello"),
    ("{s}{t", "hello"),
    ("{[{L}]%bold:<12} {s}", "[INFO ]:<12 hello"),
    // the crate's comments found wrong
    ("{L} {s}", "INFO  hello"),
    ("}{s}", "}hello"),
    ("{s}}", "hello}"),
    // lists end before a separator whose next item misfits
    ("{x{L:}}{s}", "xINFO hello"),
    ("{x{L:junk}}{s}", "xINFO hello"),
    // an inner list that misfits is tried on as a group
    ("{x{L:bold:bold{t}}{L}}{s}", "xL:bold:bold<time>INFO hello"),
    // dropped bytes, printed backslashes
    ("{s%bold}", "hello"),
    ("{L07}{s}", "INFO hello"),
    ("a\\b{s}", "a\\bhello"),
    ("{a{s}\\{b%red}c", "ahello\\c"),
    ("{bold:[{L}]}{s}", "[INFO ]hello"),
    ("{[{L%bold}]}{s}", "[INFO ]hello"),
    // widths
    ("{L:0}{s}", "INFOhello"),
    ("{L:>0007}{s}", "000INFOhello"),
    ("{s:<7}|", "hello  |"),
    ("{s:>7}|", "  hello|"),
    ("{s:^8}|", " hello  |"),
    ("{s:^08}|", "0hello00|"),
    ("{s:3}|", "hello|"),
    // absent fields and default widths
    ("{f}{F}{m}{c}{t}{s}", "<file><file><mod path><crate><time>hello"),
    ("{l}|{s}", "0   |hello"),
    ("{l:1}|{s}", "0|hello"),
    ("{t:8}|{c:9}|{s}", "<time>  |<crate>  |hello"),
    // letters are Unicode's, and a name is the whole run of them
    ("{é{s}}", "éhello"),
    ("{x{s:é}}", "xhello"),
    ("{s aé}", "hello"),
    ("{s}%aé", "hello"),
    ("{s}é", "helloé"),
    ("{Température {L}%bold} {s}", "Température INFO  hello"),
    ("{測定値 {L}%bold} {s}", "測定値 INFO  hello"),
    ("{aé {s}}", "aé hello"),
    ("{x{s:aé}}", "xhello"),
    // these are no letters
    ("{s→}", "hello"),
    ("{s\u{301}}", "hello"),
    ("{s²}", "hello"),
    ("{s:red→}", "hello"),
    // the Kelvin sign where no colour word is tried
    ("{\u{212a} {s}}", "\u{212a} hello"),
    // a `d` that is no name: dropped, or of a longer run
    ("{s d}", "hello"),
    ("{dx {s}}", "dx hello"),
    // groups
    ("{[{L}]%>9}|{s}", "  [INFO ]|hello"),
    ("{a{L}{b{s}}}", "aINFO bhello"),
    ("{{s}}", "hello"),
];

/// Templates refused by the port with the crate's own outcome.
pub(crate) const REFUSED: &[(&str, u8)] = &[
    ("{s:bold:bold}", 3),
    ("{s:}", 3),
    ("{t}%{s}", 4),
    ("{t}", 4),
    ("", 4),
    ("{}", 3),
    ("{s", 4),
    ("{{[{L}]} x} {s}", 3),
    ("default", 4),
    ("oneline", 4),
    // exactly one specifier where no group or inner segment is taken
    ("{bold}{s}", 3),
    ("{x{bold}{L}}{s}", 3),
    ("{s:L}", 3),
    ("{x{L%s}}{s}", 3),
    ("{L:{t}}{s}", 3),
    ("{x}{s}", 3),
    ("{a{b{s}}}", 3),
    // doubled parameters, lost ones too
    ("{red:red:{L}x}{s}", 3),
    ("{x{L%bold%bold}}{s}", 3),
    ("{s:red:blue}", 3),
    ("{s:red:severity}", 3),
    ("{s:4:5}", 3),
    ("{[{s}]%bold%bold}", 3),
    ("{[{s}]%red%blue}", 3),
    ("{[{s}]%4%5}", 3),
    ("{[{s}]%x}", 3),
    ("{[{s}]%}", 3),
    // exact case
    ("{s:Severity}", 3),
    ("{s:WERROR}", 3),
    ("{s:Bold}", 3),
    ("{S}{s}", 3),
    // no colour words beyond the nine
    ("{s:brightred}", 3),
    ("{s:bright red}", 3),
    ("{s:grey}", 3),
    ("{s:gray}", 3),
    ("{s:orange}", 3),
    ("{s:truecolor}", 3),
    ("{s:default}", 3),
    // letters beyond ASCII make no name
    ("{é}", 3),
    ("{éa}", 3),
    ("{s:é}", 3),
    ("{aé", 4),
    ("{aé}", 3),
    ("{sé}", 3),
    ("{sⅧ}", 3),
    ("{s\u{345}}", 3),
    ("{s:aé}", 3),
    ("{[{s}]%aé}", 3),
    // in lower case neither a `k` of a style nor an `s` nor an `i`
    ("{s:stri\u{212a}e}", 3),
    ("{s:ſtrike}", 3),
    ("{s:whİte}", 3),
    // a `d` that is no name: of a longer run, a parameter's, or in the other case
    ("{dd}{s}", 3),
    ("{[{s}]%d}", 3),
    ("{D}{s}", 3),
    // a second specifier or inner segment here, a group without a specifier in the crate
    ("{s:d}", 3),
    ("{x{s%d}}", 3),
    // depth: eight bare pairs; nine opened and eight closed
    ("{{{{{{{{}}}}}}}}", 3),
    ("{{{{{{{{{}}}}}}}}", 4),
    // a specifier at depth 3 drops what nests below it, so depth 9 is never entered
    ("{a{b{c{d{e{f{g{h{s}}}}}}}}}", 3),
    ("{a{b{d{e{g{h{i{j{s}}}}}}}}}", 3),
];

/// Where the port refuses (number first) and the crate does this instead; colour off, as in `PLAIN`.
pub(crate) const PARTED: &[(u8, &str, Instead)] = &[
    (9, "{s\\", Instead::Panic),
    (9, "{s}{\\", Instead::Panic),
    (7, "{513}", Instead::Refused(3)),
    (7, "{s:bold:bold:513}", Instead::Refused(3)),
    (7, "{x{red:red:513}}", Instead::Refused(3)),
    (7, "{s:9999999999999999999999999}", Instead::Refused(3)),
    (7, "{x{s:9999999999999999999999999}}", Instead::Line("xhello")),
    (6, "{{{{{{{{{}}}}}}}}}", Instead::Refused(3)),
    (6, "{a{b{e{g{h{i{j{k{s}}}}}}}}}", Instead::Refused(3)),
    (
        6,
        "{a{L}{a{L}{a{L}{a{L}{a{L}{a{L}{a{L}{a{L}{s}}}}}}}}}",
        Instead::Line("aINFO aINFO aINFO aINFO aINFO aINFO aINFO aINFO hello"),
    ),
];

/// Unicode's lower case: the Kelvin sign is a `k` to the crate's colour words, and here it is none; colour on.
pub(crate) const KELVIN: &[(&str, Instead)] = &[
    // 3 here: the word is no parameter
    ("{s:blac\u{212a}}", Instead::Line("\x1b[30mhello\x1b[0m")),
    ("{[{s}]%BLAC\u{212a}}", Instead::Line("\x1b[30m[hello]\x1b[0m")),
    // here the word is dropped
    ("{x{s:blac\u{212a}}}", Instead::Line("x\x1b[30mhello\x1b[0m")),
    // here the word is a text of a group
    ("{blac\u{212a} {s}}", Instead::Refused(3)),
];

/// Templates that are read: the line, as in `PLAIN`, and where the strict edition refuses the template with 17.
pub(crate) const STRICT: &[(&str, &str, Option<usize>)] = &[
    // the technician's
    ("{s} %{t}", "hello ", Some(4)),
    // the rest of the top level
    ("{s}%x", "hello", Some(3)),
    ("{s}%", "hello", Some(3)),
    ("{s}{t", "hello", Some(3)),
    // the rest of a content
    ("{s junk}", "hello", Some(2)),
    ("{s }", "hello", Some(2)),
    ("{s%bold}", "hello", Some(2)),
    ("{L07}{s}", "INFO hello", Some(2)),
    ("{x{L:}}{s}", "xINFO hello", Some(4)),
    ("{x{L:red junk}}{s}", "xINFO hello", Some(8)),
    ("{a{s}\\{b%red}c", "ahello\\c", Some(6)),
    // lost parameters, by the place of the word, sign or digit
    ("{bold:[{L}]}{s}", "[INFO ]hello", Some(1)),
    ("{<5:[{L}]}{s}", "[INFO ]hello", Some(1)),
    ("{red:bold:[{L}]}{s}", "[INFO ]hello", Some(1)),
    ("{[{L%bold}]}{s}", "[INFO ]hello", Some(5)),
    ("{x{L%5}}{s}", "xINFO hello", Some(5)),
    ("{x{5%L}}{s}", "xINFO hello", Some(3)),
    ("{x{L:9%red}|}{s}", "xINFO     |hello", Some(7)),
    // the first of several
    ("{[{L x}]}{bold:[{t}]}{s}", "[INFO ][<time>]hello", Some(4)),
    ("{bold:[{L x}]}{s}%", "[INFO ]hello", Some(1)),
    ("{a{s}{b{t%red}%bold}}", "ahellob<time>", Some(9)),
    // places count bytes
    ("é{s}%", "éhello", Some(5)),
    ("{測{s é}}", "測hello", Some(6)),
    // every byte is used, and every parameter in force
    ("{s}", "hello", None),
    ("{s}}", "hello}", None),
    ("a}b\\c{s}", "a}b\\chello", None),
    ("{[{L}]%bold}{s}", "[INFO ]hello", None),
    ("{[{L}]%bold:<12} {s}", "[INFO ]:<12 hello", None),
    ("{x{L:bold:bold{t}}{L}}{s}", "xL:bold:bold<time>INFO hello", None),
    ("{L:severity:0}{s:werror}", "INFOhello", None),
    ("{%bold[{L:0}{%007{s}}]%PURPLE%<16}|", "[INFOhello00]   |", None),
];

#[derive(Clone, Copy)]
pub(crate) enum Instead {
    Line(&'static str),
    Refused(u8),
    Panic,
}

impl Instead {
    fn answer(self) -> Answer {
        match self {
            Instead::Line(text) => line(text),
            Instead::Refused(number) => Answer::Refused(number),
            Instead::Panic => Answer::Panic,
        }
    }
}

/// File, template, line: INFO, message `hello`, colour off.
pub(crate) const PATHS: &[(&str, &str, &str)] = &[
    ("/a/b.rs", "{ff}{s}", "a/b.rshello"),
    ("/a/b.rs", "{fff}{s}", "//a/b.rshello"),
    ("/a/b.rs", "{ffff}{s}", "//a/b.rshello"),
    ("/a/b.rs", "{f}{s}", "b.rshello"),
    ("/a/b.rs", "{F}{s}", "/a/b.rshello"),
    ("main.rs", "{L} {f:>10}: {s}", "INFO     main.rs: hello"),
    ("a//b.rs", "{ff}{s}", "a/b.rshello"),
    ("a/./b.rs", "{ff}{s}", "a/b.rshello"),
    ("a/../b.rs", "{ff}{s}", "../b.rshello"),
    ("a/b/", "{f}{s}", "bhello"),
    ("/", "{f}{s}", "/hello"),
    ("//", "{ff}{s}", "/hello"),
    ("/.", "{f}{s}", "/hello"),
    ("..", "{f}{s}", "..hello"),
    ("", "{F}{s}", "hello"),
    // a `.` at the very start is a component
    ("./a", "{ff}{s}", "./ahello"),
    (".", "{f}{s}", ".hello"),
];

/// Module and crate name.
pub(crate) const CRATES: &[(&str, &str)] =
    &[("a::b", "a"), ("::x", ""), ("a", "<crate>"), ("", "<crate>"), ("a:b", "<crate>"), ("a::", "a"), ("a:::b", "a")];

/// Level, template, message, line: a device's record, colour on.
pub(crate) const COLOURED: &[(u8, &str, &str, &str)] = &[
    (1, "{L}{s}", "x", "\x1b[31mERROR\x1b[0mx"),
    (2, "{L}{s}", "x", "\x1b[33mWARN \x1b[0mx"),
    (3, "{L}{s}", "x", "\x1b[32mINFO \x1b[0mx"),
    (4, "{L}{s}", "x", "\x1b[97mDEBUG\x1b[0mx"),
    (5, "{L}{s}", "x", "\x1b[90mTRACE\x1b[0mx"),
    (3, "{L:blue}{s}", "x", "\x1b[34mINFO \x1b[0mx"),
    (3, "{L:werror}{s}", "x", "INFO x"),
    (2, "{s:werror}", "x", "\x1b[33mx\x1b[0m"),
    (3, "{s:werror}", "x", "x"),
    (5, "{s:severity}", "x", "\x1b[90mx\x1b[0m"),
    (3, "{s:black}", "x", "\x1b[30mx\x1b[0m"),
    (3, "{s:RED}", "x", "\x1b[31mx\x1b[0m"),
    (3, "{s:Green}", "x", "\x1b[32mx\x1b[0m"),
    (3, "{s:yEllow}", "x", "\x1b[33mx\x1b[0m"),
    (3, "{s:blue}", "x", "\x1b[34mx\x1b[0m"),
    (3, "{s:magenta}", "x", "\x1b[35mx\x1b[0m"),
    (3, "{s:PuRple}", "x", "\x1b[35mx\x1b[0m"),
    (3, "{s:cyan}", "x", "\x1b[36mx\x1b[0m"),
    (3, "{s:whitE}", "x", "\x1b[37mx\x1b[0m"),
    // order of the codes, whatever the order of the words
    (3, "{s:red:strike:italic:underline:dimmed:bold}", "x", "\x1b[1;2;4;3;9;31mx\x1b[0m"),
    (3, "{s:italic:underline}", "x", "\x1b[4;3mx\x1b[0m"),
    // padding is inside the colour
    (3, "{L:7}{s}", "x", "\x1b[32mINFO   \x1b[0mx"),
    (3, "{s:red:>3}", "x", "\x1b[31m  x\x1b[0m"),
    // parameters that are lost
    (3, "{bold:[{L}]}{s}", "x", "[\x1b[32mINFO \x1b[0m]x"),
    (3, "{[{L%bold}]}{s}", "x", "[\x1b[32mINFO \x1b[0m]x"),
    (3, "{s%bold}", "x", "x"),
    // two due, four inserted: nothing is padded
    (1, "{[{L}]%bold%<9}|{s}", "hello", "\x1b[1m[\x1b[31mERROR\x1b[0m\x1b[1m]\x1b[0m|hello"),
    (1, "{[{L}]%bold%<12}|{s}", "hello", "\x1b[1m[\x1b[31mERROR\x1b[0m\x1b[1m] \x1b[0m|hello"),
    // an empty text with a style
    (3, "{s:bold}", "", "\x1b[1m\x1b[0m"),
    // only one form is a reset
    (3, "{[{s}]%bold}", "a\x1b[0mb", "\x1b[1m[a\x1b[0m\x1b[1mb]\x1b[0m"),
    (3, "{[{s}]%bold}", "a\x1b[mb", "\x1b[1m[a\x1b[mb]\x1b[0m"),
    // sequences that straddle members
    (3, "{\x1b[{s}x%bold}", "0m", "\x1b[1m\x1b[0m\x1b[1mx\x1b[0m"),
    (3, "{\x1b[{s:>02}x%bold}", "m", "\x1b[1m\x1b[0m\x1b[1mx\x1b[0m"),
    // no level: the message alone
    (0, "[{L}] {s:bold:9}", "boot", "boot"),
];

/// Template, message, line: INFO, a device's record, colour off. What is visible counts.
pub(crate) const VISIBLE: &[(&str, &str, &str)] = &[
    ("{s:7}|", "héllo", "héllo  |"),
    ("{s:3}|", "e\u{301}", "e\u{301} |"),
    ("{s:3}|", "\x1b[1;31mx\x1b[0m", "\x1b[1;31mx\x1b[0m  |"),
    ("{s:3}|", "\x1b[mx", "\x1b[mx  |"),
    ("{s:3}|", "\x1b[;;mx", "\x1b[;;mx  |"),
    ("{s:5}|", "\x1b[1Kx", "\x1b[1Kx|"),
    // one pass only: what is left is a sequence of four visible characters
    ("{s:6}|", "\x1b[\x1b[0m0m", "\x1b[\x1b[0m0m  |"),
    ("{\x1b[{s}x%<4}|", "0m", "\x1b[0mx   |"),
    ("{\x1b[{s:>02}x%<4}|", "m", "\x1b[0mx   |"),
    ("{s:07}|", "", "0000000|"),
];

struct Checks {
    checked: usize,
    parted: usize,
}

/// Prints how many were checked and each that parts; true when none does.
pub fn run() -> bool {
    let mut checks = Checks { checked: 0, parted: 0 };
    checks.tables();
    checks.strict();
    checks.heads();
    checks.places();
    checks.reports();
    checks.sheet();
    checks.hosts();
    checks.limits();
    checks.panics();
    checks.built_ins();
    println!("{} examples checked, {} part from the crate", checks.checked, checks.parted);
    checks.parted == 0
}

fn info() -> Record {
    Record { level: 3, message: b"hello".to_vec(), ..Record::default() }
}

fn with_file(file: &str) -> Record {
    Record { mask: FILE, file: file.into(), ..info() }
}

fn line(text: &str) -> Answer {
    Answer::Read(vec![Shown::Line(text.into())])
}

impl Checks {
    fn same<T: PartialEq + std::fmt::Debug>(&mut self, what: &str, expected: T, found: T) {
        self.checked += 1;
        if expected != found {
            self.parted += 1;
            println!("{what:?}\n  expected {expected:?}\n  found    {found:?}");
        }
    }

    fn ask(&mut self, settings: u8, template: &str, record: &Record, expected: Answer) {
        let sheet = Sheet { settings, template: template.into(), records: vec![record.clone()] };
        self.same(template, expected, judge::answer_alone(&sheet));
    }

    fn tables(&mut self) {
        for (template, expected) in PLAIN {
            self.ask(0, template, &info(), line(expected));
        }
        for (template, number) in REFUSED {
            self.ask(0, template, &info(), Answer::Refused(*number));
        }
        for (_, template, instead) in PARTED {
            self.ask(0, template, &info(), instead.answer());
        }
        for (template, instead) in KELVIN {
            self.ask(COLOUR, template, &info(), instead.answer());
        }
        for (file, template, expected) in PATHS {
            self.ask(0, template, &with_file(file), line(expected));
        }
        for (module, name) in CRATES {
            let record = Record { mask: MODULE, module: module.as_bytes().to_vec(), ..info() };
            self.ask(0, "{c}|{s}", &record, line(&format!("{name}|hello")));
        }
        for (level, template, message, expected) in COLOURED {
            let record = Record { level: *level, message: message.as_bytes().to_vec(), ..info() };
            self.ask(COLOUR, template, &record, line(expected));
        }
        for (template, message, expected) in VISIBLE {
            let record = Record { message: message.as_bytes().to_vec(), ..info() };
            self.ask(0, template, &record, line(expected));
        }
        let plain = "[ERROR]  |hello";
        self.ask(0, "{[{L}]%bold%<9}|{s}", &Record { level: 1, ..info() }, line(plain));
    }

    /// The crate's line, the ruled place, and that the crate bears out what is ruled to be unused.
    fn strict(&mut self) {
        for (template, expected, place) in STRICT {
            self.ask(0, template, &info(), line(expected));
            let reading = ruling::template(template.as_bytes(), Names::All).expect("read in the first edition");
            self.same(template, *place, reading.unused.place());
            self.same(template, Ok(()), strict::judged(template, &reading));
        }
    }

    /// The sheet example, through its bytes.
    fn sheet(&mut self) {
        let records = vec![
            Record { level: 1, ..info() },
            Record { level: 0, message: b"boot".to_vec(), ..info() },
            Record { source: HOST, level: 0, ..Record::default() },
        ];
        let sheet = Sheet { settings: 0, template: b"[{L}] {s}".to_vec(), records };
        let read = Sheet::read(&sheet.write());
        self.same("a sheet is read as it was written", Some(sheet), read.clone());
        judge::set_colour(false);
        let printed = judge::answer(read.as_ref()).printed();
        self.same("the sheet example", b"[ERROR] hello\nboot\n! 14\n".to_vec(), printed);
        let short = Sheet::read(&[1, 0, 0, 0, 0, 0]);
        self.same("a body 0 without a byte", Answer::Refused(15), judge::answer(short.as_ref()));
        let unknown = Sheet { settings: UNKNOWN, ..Sheet::default() }.write();
        let unknown = Sheet::read(&unknown);
        self.same("an unknown settings bit", Answer::Refused(15), judge::answer(unknown.as_ref()));
    }

    fn hosts(&mut self) {
        let host = Record { source: HOST, timestamp: b"12".to_vec(), ..info() };
        self.ask(COLOUR, "{s:bold:red:9}|", &host, line("hello|"));
        self.ask(COLOUR, "{t}|{s}", &host, line("<time>|hello"));
        // a host's bare message counts for the group around it
        self.ask(COLOUR, "{[{s:bold:9}]%red%<10}|", &host, line("\x1b[31m[hello]   \x1b[0m|"));
        let device = Record { source: DEVICE, ..host };
        self.ask(0, "{t}|{s}", &device, line("12|hello"));
        let lined = Record { mask: LINE, line: 42, ..info() };
        self.ask(0, "{l}|{l:1}|{l:>06}|{s}", &lined, line("42  |42|000042|hello"));
    }

    /// Both sides of the port's limits: the crate goes on where document 01 refuses.
    fn limits(&mut self) {
        let padded = |width: usize| line(&format!("hello{}", " ".repeat(width - 5)));
        self.ask(0, "{s:512}", &info(), padded(512));
        self.ask(0, "{s:513}", &info(), padded(513));
        let file = with_file("x/y");
        let names = |count: usize| format!("{{{}}}{{s}}", "f".repeat(count));
        self.ask(0, &names(255), &file, line("x/yhello"));
        self.ask(0, &names(256), &info(), line("<file>hello"));
        self.ask(0, &names(256), &file, Answer::Read(vec![Shown::Panic]));
        self.ask(0, &names(257), &file, line("yhello"));
        self.ask(0, &format!("{{[{{s}}]%{}}}", "f".repeat(256)), &info(), Answer::Refused(3));
        self.ask(0, &format!("{{{}é}}{{s}}", "f".repeat(256)), &info(), Answer::Refused(3));
        self.ask(0, &format!("{{{}\u{301}}}{{s}}", "f".repeat(256)), &info(), line("<file>hello"));
        let segments = |count: usize| "{l:1}".repeat(count - 1) + "{s}";
        let shown = |count: usize| line(&("0".repeat(count - 1) + "hello"));
        self.ask(0, &segments(64), &info(), shown(64));
        self.ask(0, &segments(65), &info(), shown(65));
        let long = |bytes: usize| "x".repeat(bytes - 3) + "{s}";
        for bytes in [1024, 1025] {
            self.ask(0, &long(bytes), &info(), line(&("x".repeat(bytes - 3) + "hello")));
        }
        for bytes in [4096, 4097] {
            let record = Record { message: vec![b'm'; bytes], ..info() };
            self.ask(0, "{s}", &record, line(&"m".repeat(bytes)));
        }
    }

    /// Where the crate panics there is no comparison; that it does is checked all the same.
    fn panics(&mut self) {
        self.ask(0, "{f}{s}", &with_file(""), Answer::Read(vec![Shown::Panic]));
        let sequences = Record { message: b"\x1b[0m".repeat(1024), ..info() };
        let sixteen = format!("{{{}}}", "{s}".repeat(16));
        self.ask(0, &sixteen, &sequences, Answer::Read(vec![Shown::Panic]));
        let fifteen = format!("{{{}}}", "{s}".repeat(15));
        let line = line(&"\x1b[0m".repeat(15 * 1024));
        self.ask(0, &fifteen, &sequences, line);
    }

    fn built_ins(&mut self) {
        for choice in 0..8 {
            let [oneline, location, timestamp] = [choice & 4 != 0, choice & 2 != 0, choice & 1 != 0];
            let template = format::built_in(oneline, location, timestamp);
            let device = format::built_in_dump(oneline, location, timestamp, false);
            self.same(template, format::dump(template), device);
            let host = format::built_in_dump(oneline, location, timestamp, true);
            let template = format!("{template} (HOST)");
            self.same(&template, format::dump(&template), host);
            let names = Template::read(&template).map(|read| read.has_timestamp());
            self.same(&template, Ok(timestamp), names);
        }
        for (template, expected) in [("{t}{s}", true), ("{x{t}}{s}", true), ("t{s}", false), ("{s}{t", false)] {
            let names = Template::read(template).map(|read| read.has_timestamp());
            self.same(template, Ok(expected), names);
        }
    }
}
