//! The examples of docs/GUIDE.md: each is run, and prints what the guide says; its code is code that is run. A block of
//! `lines` has examples of one line each, one of `message` the record of the `printed` ones after it.

use pralakuon::{entries, point_at, Formatter, FormatterConfig, Level, Record, Refusal};

const GUIDE: &str = include_str!("../../docs/GUIDE.md");

/// A word of the guide: `x*3` is `xxx`, `{s}*2` is `{s}{s}`, `xff` is the byte 255, `ESC` the byte 27, `U+3099` that mark.
fn spelled(word: &str) -> Vec<u8> {
    if word == "xff" {
        return vec![0xff];
    }
    let mut bytes = Vec::new();
    let mut rest = word.replace("ESC", "\x1b").replace("U+3099", "\u{3099}");
    while let Some(star) = rest.find('*') {
        let digits = rest[star + 1..].bytes().take_while(u8::is_ascii_digit).count();
        let count: usize = rest[star + 1..star + 1 + digits].parse().expect("a number after *");
        // what is repeated: a letter, or braces
        let from = if rest[..star].ends_with('}') { rest[..star].rfind('{').expect("a brace") } else { star - 1 };
        bytes.extend(rest[..from].bytes());
        bytes.extend(rest[from..star].repeat(count).bytes());
        rest = rest[star + 1 + digits..].to_string();
    }
    bytes.extend(rest.bytes());
    bytes
}

/// What a line `# level=INFO message=hello ..` says of the record, and the settings.
struct Told {
    settings: u8,
    numbers: [u8; 2],
    line: Option<u32>,
    texts: [Option<Vec<u8>>; 5],
}

fn told(line: &str) -> Told {
    let mut told = Told { settings: 0, numbers: [0, 0], line: None, texts: Default::default() };
    for pair in line.split_whitespace() {
        let (key, value) = pair.split_once('=').expect("KEY=VALUE");
        match key {
            "settings" => told.settings = value.parse().unwrap(),
            "source" => told.numbers[0] = u8::from(value == "host"),
            "level" => {
                let names = ["0", "ERROR", "WARN", "INFO", "DEBUG", "TRACE", "6"];
                told.numbers[1] = names.iter().position(|name| *name == value).expect("a level") as u8;
            }
            "line" => told.line = Some(value.parse().unwrap()),
            "file" => told.texts[0] = Some(spelled(value)),
            "module" => told.texts[1] = Some(spelled(value)),
            "time" => told.texts[2] = Some(spelled(value)),
            "message" => told.texts[3] = Some(spelled(value)),
            "head" => told.texts[4] = Some(spelled(value)),
            _ => panic!("the guide says {key} of a record"),
        }
    }
    told
}

/// The record, laid out as the guide's table says.
fn laid_out(told: &Told) -> Vec<u8> {
    let bit = |present: bool, bit| if present { bit } else { 0 };
    let place = bit(told.texts[0].is_some(), 1) + bit(told.line.is_some(), 2) + bit(told.texts[1].is_some(), 4);
    let mask = place + bit(told.texts[4].is_some(), 8);
    let mut bytes = vec![told.numbers[0], told.numbers[1], mask];
    bytes.extend(told.line.unwrap_or(0).to_le_bytes());
    // A head has a place only by the settings that say so.
    let count = if told.settings & 8 == 0 { 4 } else { 5 };
    let texts: Vec<&[u8]> = told.texts.iter().take(count).map(|text| text.as_deref().unwrap_or_default()).collect();
    for text in &texts {
        bytes.extend((text.len() as u16).to_le_bytes());
    }
    bytes.extend(texts.concat());
    bytes
}

/// What the archive answers: the line, or `! N`; with 17 the place, too.
fn answered(told: &Told, template: &[u8]) -> Vec<u8> {
    let mut out = vec![0; 10_000];
    let answer = entries::line(template, told.settings, &laid_out(told), &mut out);
    match entries::refusal_of(answer) {
        0 => out[..entries::length_of(answer)].to_vec(),
        17 => format!("! 17 at {}", entries::place_of(answer)).into_bytes(),
        number => format!("! {number}").into_bytes(),
    }
}

/// What is wrong with an example: its template, as the guide spells it, prints something else than expected.
fn wrong(told: &Told, template: &str, expected: &str) -> Option<String> {
    let line = answered(told, &spelled(template.trim_end()));
    (line != spelled(expected)).then(|| format!("prints {:?}", String::from_utf8_lossy(&line)))
}

/// A message of several lines: the first line of its block says what the record is besides.
fn told_in_lines(block: &[&str]) -> Told {
    let (said, message) = block.split_first().expect("a record");
    let mut told = told(said.strip_prefix("# ").expect("# KEY=VALUE"));
    told.texts[3] = Some(message.join("\n").into_bytes());
    told
}

#[test]
fn every_example_prints_what_the_guide_says() {
    let mut record = told("level=INFO message=hello");
    let mut counts = [0; 2];
    let mut found = Vec::new();
    let mut lines = GUIDE.lines().enumerate();
    while let Some((number, line)) = lines.next() {
        let kind = match line.strip_prefix("```") {
            Some(kind) => kind,
            None => continue,
        };
        let block: Vec<&str> = lines.by_ref().map(|(_, line)| line).take_while(|line| *line != "```").collect();
        let mut tried = |record: &Told, at: usize, template: &str, expected: &str| {
            let wrong = wrong(record, template, expected);
            found.extend(wrong.map(|wrong| format!("docs/GUIDE.md, line {}: {wrong}", number + at + 2)));
        };
        match kind {
            "lines" => {
                for (at, line) in block.into_iter().enumerate() {
                    if let Some(said) = line.strip_prefix("# ") {
                        record = told(said);
                        continue;
                    }
                    let (template, expected) = line.split_once("=>  ").expect("TEMPLATE => LINE");
                    tried(&record, at, template, expected);
                    counts[0] += 1;
                }
            }
            "message" => record = told_in_lines(&block),
            // The settings hold for this block alone.
            "printed" => {
                let settings = block[0].strip_prefix("# settings=").map(|said| said.parse().expect("a number"));
                let at = usize::from(settings.is_some());
                record.settings = settings.unwrap_or(0);
                let template = block[at].strip_suffix("=>").expect("TEMPLATE =>");
                tried(&record, at, template, &block[at + 1..].join("\n"));
                counts[1] += 1;
            }
            _ => {}
        }
    }
    assert!(found.is_empty(), "{}", found.join("\n"));
    assert!(counts[0] > 50 && counts[1] > 4, "only {counts:?} examples were found");
}

/// The lines of the guide's code in a language, without the space before them.
fn quoted(language: &str) -> Vec<&'static str> {
    let begin = format!("```{language}\n");
    let blocks = GUIDE.split(&begin).skip(1).map(|rest| rest.split("```").next().unwrap_or_default());
    blocks.flat_map(str::lines).map(str::trim_start).collect()
}

/// The guide's Rust stands here, too.
#[test]
fn the_guides_rust_is_run() -> Result<(), Refusal> {
    for template in ["{s} {t}", "{s} %{t}"] {
        let config = FormatterConfig::custom(template).with_strict();
        if let Err(refusal @ Refusal::Dropped { place }) = Formatter::new(config) {
            eprintln!("{refusal}:\n{}", point_at(template.as_bytes(), place));
        }
        assert_eq!(Formatter::new(config).is_err(), template.contains('%'));
    }
    let formatter = Formatter::new(FormatterConfig::custom("{d:>6} {s}"))?;
    let record = Record::new(Level::Info, "crack").with_head("H-07");
    assert_eq!(formatter.format(&record)?, "  H-07 crack");
    let formatter = Formatter::new(FormatterConfig::custom("{c:8}|{s}").with_places())?;
    let record = Record::new(Level::Info, "0.412 mm").with_module_path("北壁::gauge");
    assert_eq!(formatter.format(&record)?, "北壁    |0.412 mm");

    assert!(quoted("rust").len() > 6 && quoted("rust").iter().all(|line| include_str!("guide.rs").contains(line)));
    Ok(())
}

/// The guide's C is of the tour, which tests/c.rs compiles and runs.
#[test]
fn the_guides_c_is_of_the_tour() {
    let tour: Vec<&str> = include_str!("c/tour.c").lines().map(str::trim_start).collect();
    for line in quoted("c") {
        assert!(tour.contains(&line) || line == "}", "the tour has no line {line}");
    }
    assert!(quoted("c").len() > 7);
}
