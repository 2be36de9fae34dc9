//! The places rule: widths count two for a wide character, in every call and beside every other setting. What is wide is
//! said here by the letter of Unicode 17.0.0; oracle/ holds all of it against Unicode's own table.

mod common;

use common::{hand_laid, hand_laid_with_head, hello, line_of, printed, sample, sheet_of, told, written, PAINT};
use pralakuon::{
    check, entries, line, names_timestamp, session, visible_str, Formatter, FormatterConfig, HostFormatter, HostRecord,
    Level, RawRecord, Record, Refusal, Settings, Sheet, SheetWriter,
};

/// The settings bits for places and for records that are laid out with heads.
const PLACES: u8 = 16;
const HEADS: u8 = 8;

const COUNTED: Settings = Settings::PLAIN.with_places(true);

/// The line of a message by these settings, the same in every way that a caller has.
fn shown(template: &str, settings: u8, message: &str) -> String {
    let (bytes, record) = (template.as_bytes(), Record::new(Level::Info, message));
    let typed = Settings::from_byte(settings).unwrap();
    let config = FormatterConfig::custom(template).with_settings(typed);
    let shown = Formatter::new(config).unwrap().format(&record).unwrap();
    let laid_out = [(settings, hand_laid(message.as_bytes()))];
    let with_head = [(settings | HEADS, hand_laid_with_head(message.as_bytes(), 0, b""))];
    for (settings, record) in laid_out.iter().chain(&with_head) {
        let mut out = [PAINT; 2_000];
        let answer = entries::line(bytes, *settings, record, &mut out);
        assert_eq!(answer, 256 * shown.len() as u64, "{template} {message} {settings}");
        assert_eq!(&out[..shown.len()], shown.as_bytes(), "{template} {message} {settings}");
        assert!(out[shown.len()..].iter().all(|&byte| byte == PAINT), "changed behind the line");
        let sheet = sheet_of(&[&[&[*settings], bytes].concat(), record]);
        assert_eq!(session(&sheet), Ok(format!("{shown}\n").into_bytes()));
        assert_eq!(Sheet::read(&sheet).unwrap().lines().next(), Some(Ok(shown.clone().into_bytes())));
    }
    assert_eq!(line_of(bytes, typed, &record), Ok(shown.clone().into_bytes()));
    shown
}

/// Places that the archive gives to a text of 20 at most: what is missing of 20 is padding.
fn places_of(text: &str) -> usize {
    let mut out = [0; 512];
    let record = RawRecord::new().with_level(3).with_message(text.as_bytes());
    20 - (line(b"{s:20}", COUNTED, record, &mut out).unwrap() - text.len())
}

#[test]
fn the_rule_and_the_crates_rule_side_by_side() {
    let rows = [
        ("{s:6}|", "壁B3", "壁B3   |", "壁B3  |"),
        ("{s:^7}|", "壁", "   壁   |", "  壁   |"),
        ("{s:>7}|", "壁", "      壁|", "     壁|"),
        ("{s:07}|", "壁", "壁000000|", "壁00000|"),
        ("{s:>07}|", "壁", "000000壁|", "00000壁|"),
        // Halfwidth, U+FF76, and fullwidth, U+FF21.
        ("{s:07}|", "ｶ", "ｶ000000|", "ｶ000000|"),
        ("{s:4}|", "Ａ", "Ａ   |", "Ａ  |"),
        // A combining mark alone.
        ("{s:4}|", "\u{3099}", "\u{3099}   |", "\u{3099}  |"),
        // Four places, and nothing due.
        ("{s:2}|", "壁壁", "壁壁|", "壁壁|"),
        ("{s:3}|", "壁壁", "壁壁 |", "壁壁|"),
    ];
    for (template, message, characters, places) in rows {
        assert_eq!(shown(template, 0, message), characters, "{template} {message}");
        assert_eq!(shown(template, PLACES, message), places, "{template} {message}");
        // Strict templates and straight colour that is not switched on change no line.
        for more in [2, 4, 6] {
            assert_eq!(shown(template, more, message), characters, "{template} {message} {more}");
            assert_eq!(shown(template, PLACES | more, message), places, "{template} {message} {more}");
        }
    }
}

#[test]
fn bytes_inserted_for_colour_stay_bytes() {
    let line = |settings| shown("{[{s:red}]%bold%9}|", settings, "壁");
    let coloured = |spaces: &str| format!("\x1b[1m[\x1b[31m壁\x1b[0m\x1b[1m]{spaces}\x1b[0m|");
    // `[壁]` is three characters or four places, so six or five are due; the crate takes off the four bytes inserted.
    assert_eq!([0, 1, 3].map(line), ["[壁]      |".to_string(), coloured("  "), coloured("      ")]);
    assert_eq!([16, 17, 19].map(line), ["[壁]     |".to_string(), coloured(" "), coloured("     ")]);
    // Where fewer are due than are inserted, nothing is left.
    let line = |settings| shown("{[{s:red}]%bold%7}|", settings, "壁");
    assert_eq!([1, 17].map(line), [coloured(""), coloured("")]);
    assert_eq!([3, 19].map(line), [coloured("    "), coloured("   ")]);
}

#[test]
fn bits_16_to_31_are_known_everywhere() {
    let (old, headed) = (hand_laid("壁".as_bytes()), hand_laid_with_head("壁".as_bytes(), 8, b"H-07"));
    for settings in 16..32 {
        let record = if settings & HEADS == 0 { &old } else { &headed };
        assert_eq!(entries::check(b"{s}", settings), 0, "{settings}");
        assert_eq!(entries::timestamp(b"{t}{s}", settings), 256, "{settings}");
        assert_eq!(entries::line(b"{s:4}", settings, record, &mut [0; 80]), 5 * 256, "{settings}");
        let sheet = sheet_of(&[&[&[settings], &b"{s:4}"[..]].concat(), record]);
        assert_eq!(session(&sheet), Ok("壁  \n".into()), "{settings}");
        let read = Sheet::read(&sheet).unwrap();
        assert_eq!((read.settings.places, read.heads), (true, settings & HEADS != 0));
        assert_eq!(Some(read.settings), Settings::from_byte(settings & !HEADS));
        assert_eq!(written(&read), sheet);
        // Of the other layout it is no record.
        let other = if settings & HEADS == 0 { &headed } else { &old };
        assert_eq!(entries::line(b"{s:4}", settings, other, &mut [0; 80]), 15, "{settings}");
    }
}

#[test]
fn bits_from_32_on_are_15() {
    let (old, headed) = (hand_laid("壁".as_bytes()), hand_laid_with_head("壁".as_bytes(), 8, b"H-07"));
    for settings in 32..=255 {
        assert_eq!(entries::check(b"{s}", settings), 15, "{settings}");
        assert_eq!(entries::timestamp(b"{t}{s}", settings), 15, "{settings}");
        for record in [&old, &headed] {
            let mut out = [PAINT; 80];
            assert_eq!(entries::line(b"{s:4}", settings, record, &mut out), 15, "{settings}");
            let sheet = sheet_of(&[&[&[settings], &b"{s:4}"[..]].concat(), record]);
            assert_eq!(entries::session(&sheet, &mut out), 15, "{settings}");
            assert_eq!(Sheet::read(&sheet), Err(Refusal::NotASheet));
            assert_eq!(out, [PAINT; 80]);
        }
    }
}

/// What counts two by the letter of the table, whatever a screen makes of it.
const TWO: [(&str, &str); 6] = [
    ("ideographs, kana, a wide middle dot, a Hangul syllable", "壁のト・값"),
    ("the ideographic space, fullwidth forms", "\u{3000}Ａ！￥"),
    (
        "combining marks, to which many screens give no place",
        "\u{302a}\u{302f}\u{3099}\u{309a}\u{16fe4}\u{16ff0}\u{16ff1}",
    ),
    ("the Hangul filler", "\u{3164}"),
    ("emoji, and a skin tone that follows one", "😀⌚☔\u{1f3fb}"),
    ("the ends of ranges, and what is not assigned in a plane of ideographs", "\u{1100}\u{115f}\u{2b81e}\u{3fffd}"),
];

/// And what counts one.
const ONE: [(&str, &str); 7] = [
    ("ASCII and what is like it, control characters too", "aé\0\u{7f}\u{a0}\u{ad}"),
    ("halfwidth kana with its mark and its middle dot, halfwidth Hangul, a halfwidth won", "ｶ\u{ff9e}･\u{ffa1}₩"),
    ("ambiguous", "→°·α①─\u{fffd}"),
    ("marks that combine, and what a Hangul syllable in parts goes on with", "\u{301}\u{20dd}\u{1160}\u{11a8}"),
    ("regional indicators, of which two make a flag", "\u{1f1ef}\u{1f1f5}"),
    ("what joins emoji, and what chooses their look", "\u{200d}\u{fe0f}"),
    (
        "right beside wide ones, and private",
        "\u{10ff}\u{303f}\u{3040}\u{d7a4}\u{ff00}\u{ff61}\u{2fffe}\u{40000}\u{e000}",
    ),
];

#[test]
fn what_counts_two_and_what_counts_one() {
    let rows = TWO.map(|(what, text)| (2, what, text)).into_iter().chain(ONE.map(|(what, text)| (1, what, text)));
    for (count, what, text) in rows {
        for character in text.chars() {
            let text = character.to_string();
            assert_eq!(places_of(&text), count, "{what}: {}", character.escape_unicode());
            assert_eq!(shown("{s:3}|", PLACES, &text), format!("{text}{}|", " ".repeat(3 - count)));
            assert_eq!(shown("{s:3}|", 0, &text), format!("{text}  |"));
        }
    }
    // Sequences have the sum of their characters: か with its mark, two emoji joined, a flag, a syllable in parts.
    for (text, count) in
        [("か\u{3099}", 4), ("👩\u{200d}🔬", 5), ("🇯🇵", 2), ("\u{1112}\u{1161}\u{11ab}", 4), ("e\u{301}", 2)]
    {
        assert_eq!(places_of(text), count, "{}", text.escape_unicode());
    }
}

/// Whole blocks that are wide, and how many wide characters there are in all: where they stand one by one, oracle/ says.
#[test]
fn every_character_counts_one_or_two() {
    let blocks = ['\u{3041}'..='\u{3096}', '\u{30a0}'..='\u{30ff}', '\u{3400}'..='\u{9fff}', '\u{ac00}'..='\u{d7a3}'];
    let planes = ['\u{20000}'..='\u{2fffd}', '\u{30000}'..='\u{3fffd}'];
    let mut wide = 0;
    let mut text = [0; 4];
    for character in '\0'..=char::MAX {
        let count = places_of(character.encode_utf8(&mut text));
        let whole = blocks.iter().chain(&planes).any(|block| block.contains(&character));
        let due = match character {
            '\0'..='\u{10ff}' => count == 1,
            _ if whole => count == 2,
            _ => count == 1 || count == 2,
        };
        assert!(due, "{} counts {count}", character.escape_unicode());
        wide += count - 1;
    }
    assert_eq!(wide, 182_876);
}

/// Characters of one to four bytes, and how many places each takes.
const PIECES: [(&str, usize); 7] = [("x", 1), ("é", 1), ("→", 1), ("壁", 2), ("ｶ", 1), ("😀", 2), ("\u{1f1ef}", 1)];

/// Long texts are looked at in blocks, so wide characters have their turn at every place of one.
#[test]
fn a_wide_character_counts_wherever_it_stands() {
    for (before, each) in PIECES {
        for (piece, own) in PIECES {
            for count in (0..140).chain([255, 256, 257]) {
                let text = before.repeat(count) + piece + before;
                let places = count * each + own + each;
                let mut out = [0; 2_000];
                let length = line(b"{s:512}|", COUNTED, hello().with_message(text.as_bytes()), &mut out).unwrap();
                let padding = 512usize.saturating_sub(places);
                assert_eq!(length, text.len() + padding + 1, "{count} times {before}, then {piece}");
                assert_eq!(&out[..text.len()], text.as_bytes());
                assert_eq!(out[text.len()..length], *(" ".repeat(padding) + "|").as_bytes());
            }
        }
    }
}

#[test]
fn no_character_is_cut() {
    for (width, line) in [(0, "壁壁|"), (1, "壁壁|"), (3, "壁壁|"), (4, "壁壁|"), (5, "壁壁 |"), (6, "壁壁  |")]
    {
        assert_eq!(shown(&format!("{{s:{width}}}|"), PLACES, "壁壁"), line, "{width}");
    }
    // An odd number of places in an even width, and the other way round.
    assert_eq!(shown("{s:4}|", PLACES, "壁x"), "壁x |");
    assert_eq!(shown("{s:>4}|", PLACES, "x壁"), " x壁|");
    assert_eq!(shown("{s:^6}|", PLACES, "壁x"), " 壁x  |");
    assert_eq!(shown("{s:^5}|", PLACES, "壁"), " 壁  |");
    // A message of the longest kind.
    let longest = "壁".repeat(1_365);
    assert_eq!(line_of(b"{s:512}", COUNTED, &Record::new(Level::Info, &longest)), Ok(longest.clone().into_bytes()));
}

#[test]
fn every_text_of_a_line_is_counted_so() {
    let record = Record::new(Level::Warn, "割れ")
        .with_file("/現場/北壁/計器.rs")
        .with_line(7)
        .with_module_path("北壁::計器")
        .with_timestamp("九時")
        .with_head("頭-7");
    let specifiers = [
        ("{s:>9}", "     割れ", "       割れ"),
        ("{t:9}", "九時     ", "九時       "),
        ("{f:>9}", "  計器.rs", "    計器.rs"),
        ("{ff:>14}", "  北壁/計器.rs", "      北壁/計器.rs"),
        ("{F:>20}", "  /現場/北壁/計器.rs", "        /現場/北壁/計器.rs"),
        ("{m:>12}", "  北壁::計器", "      北壁::計器"),
        ("{c:9}", "北壁     ", "北壁       "),
        ("{d:>6}", "  頭-7", "   頭-7"),
        // No wide characters, so the same.
        ("{L:7}", "WARN   ", "WARN   "),
        ("{l:>6}", "     7", "     7"),
        // Text of the template counts in a group, and of groups in groups.
        ("{場所 {c}%>13}", "    場所 北壁", "        場所 北壁"),
        ("{{[{c:6}]%9}:{L}%>17}", "  [北壁  ] :WARN ", "  [北壁    ] :WARN "),
    ];
    for (template, places, characters) in specifiers {
        let template = template.to_string() + "|{s}";
        for (settings, line) in [(COUNTED, places), (Settings::PLAIN, characters)] {
            let made = line_of(template.as_bytes(), settings, &record);
            assert_eq!(made, Ok(format!("{line}|割れ").into_bytes()), "{template}");
        }
    }
}

#[test]
fn straight_colour_taken_out_is_the_plain_line() {
    let templates = [
        "{[{s}]%bold%<12}|{L}",
        "{[{L:bold} {c:red:>10}]%underline%^32}|{s:>14:blue}|",
        "{{{s:red:^9}|{c:8}%underline%>30}{L}%strike%^40}|{s:bold:09}",
        "{場所 {c:italic:>9}：{s:>9}%dimmed%36}|{d:severity:^9}",
    ];
    for template in templates {
        for message in ["壁", "ｶ壁x", "か\u{3099}", "hello", ""] {
            let record = Record::new(Level::Error, message).with_module_path("蔵の土壁::gauge").with_head("頭");
            let line = |settings: Settings| {
                Formatter::new(FormatterConfig::custom(template).with_settings(settings).with_places())
                    .and_then(|formatter| formatter.format(&record))
                    .unwrap()
            };
            let (plain, straight) = (line(Settings::PLAIN), line(Settings::STRAIGHT_COLOUR));
            assert_ne!(straight, plain, "there is colour");
            assert_eq!(visible_str(&straight).as_ref(), Ok(&plain), "{template}");
            assert_eq!(line(Settings::PLAIN.with_straight(true)), plain);
            // The crate's colour takes bytes off the padding, and adds nothing.
            let crates = visible_str(&line(Settings::CRATE_COLOUR)).unwrap();
            let bare = |text: &str| text.replace([' ', '0'], "");
            assert!(crates.len() <= plain.len() && bare(&crates) == bare(&plain), "{template}");
        }
    }
}

/// What is not seen counts nothing, and what stands around it is what it was.
#[test]
fn colour_inside_a_text_takes_no_place() {
    let record = |message| Record::new(Level::Info, message);
    for (message, spaces) in [
        ("\x1b[31m壁\x1b[0m", 4),
        ("壁\x1b[1;31m壁", 2),
        ("\x1b[31壁", 0),
        ("\x1b壁", 3),
        ("壁\x1b", 3),
        ("\x1b[0\x1b[0m壁", 1),
    ] {
        let made = line_of(b"{s:6}|", COUNTED, &record(message));
        assert_eq!(made, Ok(format!("{message}{}|", " ".repeat(spaces)).into_bytes()), "{message:?}");
    }
    // No sequence can stand inside a character: that would be no UTF-8.
    for split in [&b"\xe5\x1b[0m\xa3\x81"[..], b"\xe5\xa3\x1b[0m\x81", b"\xe5\xa3", b"\xa3\x81"] {
        assert_eq!(line_of(b"{s:6}|", COUNTED, hello().with_message(split)), Err(Refusal::FieldNotUtf8));
    }
}

#[test]
fn prints_and_the_hosts_messages_stay_bare() {
    let template = "{t:>9} {c:8}|{s:>9}|";
    let device = Formatter::new(FormatterConfig::custom(template).with_places()).unwrap();
    assert_eq!(device.format(&Record::print("北壁")).as_deref(), Ok("北壁"));
    let host = HostFormatter::new(FormatterConfig::custom(template).with_places()).unwrap();
    let record = HostRecord::new(Level::Info, "北壁").with_module_path("端末::app");
    assert_eq!(host.format(&record).as_deref(), Ok("   <time> 端末    |北壁|"));
    // A group around it is padded, and counts places.
    let host = HostFormatter::new(FormatterConfig::custom("{{s}%>9}|").with_places()).unwrap();
    assert_eq!(host.format(&record).as_deref(), Ok("     北壁|"));
}

#[test]
fn the_room_that_is_needed_is_still_bytes() {
    let record = Record::new(Level::Info, "壁");
    for (settings, needed) in [(COUNTED, 3 + 2 + 1), (Settings::PLAIN, 3 + 3 + 1)] {
        let mut out = [PAINT; 8];
        let short = line(b"{s:4}|", settings, &record, &mut out[..needed - 1]);
        assert_eq!((short, out), (Err(Refusal::LineTooLong { needed }), [PAINT; 8]));
        assert_eq!(line(b"{s:4}|", settings, &record, &mut out), Ok(needed));
    }
}

#[test]
fn no_template_is_read_otherwise() {
    for template in ["{s}", "{t}{s}", "{壁 {s:4}}", "{s壁}", "{s:513}", "{t}", "{s} %{t}", "{壁:{s}", "%"] {
        for settings in [Settings::PLAIN, Settings::PLAIN.with_strict(true), Settings::STRAIGHT_COLOUR] {
            let (bytes, places) = (template.as_bytes(), settings.with_places(true));
            assert_eq!(check(bytes, places), check(bytes, settings), "{template}");
            assert_eq!(names_timestamp(bytes, places), names_timestamp(bytes, settings), "{template}");
        }
    }
}

#[test]
fn a_sheet_keeps_the_bit() {
    let site = RawRecord::new().with_level(3).with_module_path("北壁::B3".as_bytes()).with_message(b"crack");
    for (settings, head, line) in [
        (COUNTED, None, "北壁    |<head>|crack\n"),
        (COUNTED, Some(&b"H-07"[..]), "北壁    |  H-07|crack\n"),
        (COUNTED.with_strict(true), Some("頭".as_bytes()), "北壁    |    頭|crack\n"),
        (Settings::PLAIN, Some("頭".as_bytes()), "北壁      |     頭|crack\n"),
    ] {
        let record = head.map_or(site, |head| site.with_head(head));
        let mut writer = SheetWriter::new(settings, b"{c:8}|{d:>6}|{s}").unwrap();
        // The layout may change on the way, and the settings stay.
        writer.push(site).unwrap();
        writer.push(record).unwrap();
        let bytes = writer.finish();
        let byte = settings.byte() | if head.is_some() { HEADS } else { 0 };
        assert_eq!(bytes[2 + 3 * 4], byte);
        let sheet = Sheet::read(&bytes).unwrap();
        assert_eq!((sheet.settings, sheet.heads), (settings, head.is_some()));
        assert_eq!(written(&sheet), bytes);
        assert!(printed(&bytes).ends_with(line.as_bytes()), "{line}");
        assert_eq!(sheet.lines().last(), Some(Ok(line.trim_end().into())));
    }
    // A record that is refused is told as before.
    let mut writer = SheetWriter::new(COUNTED, b"{s:4}").unwrap();
    writer.push(hello().with_message("壁".repeat(1_366).as_bytes())).unwrap();
    assert_eq!(printed(&writer.finish()), told(11));
}

#[test]
fn a_configuration_asked_for_places_keeps_them() {
    let config = FormatterConfig::custom("{s:4}|");
    assert!(!config.settings.places && !Settings::default().places);
    let asked = [
        config.with_places(),
        config.with_settings(COUNTED),
        config.with_places().with_settings(Settings::PLAIN),
        config.with_settings(Settings::PLAIN).with_places(),
    ];
    for asked in asked {
        assert_eq!(asked.settings, COUNTED);
        assert_eq!(Formatter::new(asked).unwrap().settings(), COUNTED);
    }
    let all = config.with_places().with_strict().with_settings(Settings::STRAIGHT_COLOUR);
    assert_eq!(all.settings.byte(), 1 + 2 + 4 + 16);
    assert_eq!(COUNTED.with_places(false), Settings::PLAIN);
}

/// The columns that a terminal gives to what the sample holds, said once more: kana, ideographs and a wide middle dot.
fn columns(character: char) -> usize {
    1 + usize::from(matches!(character, '\u{3040}'..='\u{30ff}' | '\u{4e00}'..='\u{9fff}'))
}

#[test]
fn the_sample_of_japanese_sites_has_its_columns_straight() {
    let bytes = sample("wall-places.sheet");
    let mut sheet = Sheet::read(&bytes).unwrap();
    assert_eq!((sheet.settings, sheet.heads), (COUNTED, false));
    /// Where the bars of each line stand on a screen.
    fn bars(lines: &str) -> Vec<Vec<usize>> {
        let bars = |line: &str| {
            let places = line.match_indices('|').map(|(at, _)| line[..at].chars().map(columns).sum());
            places.collect::<Vec<usize>>()
        };
        lines.lines().map(bars).filter(|bars| !bars.is_empty()).collect()
    }
    let lines = String::from_utf8(sample("wall-places.txt")).unwrap();
    assert_eq!(bars(&lines), vec![vec![22, 35, 52]; 6]);
    // Names of wide characters, of halfwidth ones and of ASCII; and a print, which has no columns.
    assert!(["|北壁 ", "|ﾄﾗｽ-3 ", "|B3 "].iter().all(|name| lines.contains(name)));
    assert_eq!(lines.lines().count(), 7);
    // By the crate's rule they slide, by as many places as there are wide characters before them.
    sheet.settings.places = false;
    let slid = String::from_utf8(printed(&written(&sheet))).unwrap();
    let second: Vec<usize> = bars(&slid).iter().map(|bars| bars[1] - 35).collect();
    assert_eq!(second, [0, 2, 4, 0, 6, 0]);
}
