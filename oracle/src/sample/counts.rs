//! How many cases touch what.

use super::cases::Case;
use crate::judge::{self, Answer};
use crate::ruling::{self, Names};
use crate::sheet::Layout;
use crate::tree;
use std::collections::BTreeMap;

#[derive(Default)]
pub struct Counts {
    by_kind: BTreeMap<(&'static str, String), usize>,
}

impl Counts {
    /// Counts a case once under each thing that it touches.
    pub fn add(&mut self, case: &Case, answer: &Answer, ruled: bool) {
        let mut touched = vec![
            ("N", format!("{:3}", case.number)),
            ("family", case.family.to_string()),
            ("setting", if case.sheet.colour() { "colour on" } else { "colour off" }.to_string()),
            ("edition", if case.sheet.strict() { "strict" } else { "first" }.to_string()),
            ("rule", if case.sheet.places() { "places" } else { "characters" }.to_string()),
            ("records", if case.sheet.layout() == Layout::Old { "old" } else { "with heads" }.to_string()),
            ("answer", summary(answer)),
        ];
        for record in &case.sheet.records {
            touched.push(("source", if record.source == 0 { "device" } else { "host" }.to_string()));
            touched.push(("level", record.level.to_string()));
            touched.push(("mask", record.mask.to_string()));
        }
        if let Answer::Read(_) = answer {
            let dump = dump(&case.sheet.template);
            touched.push(("groups in groups", group_depth(&dump).to_string()));
            touched.push(("lines", if ruled { "ruled" } else { "the crate's" }.to_string()));
            touch_segments(&dump, &mut touched);
        }
        let text = String::from_utf8_lossy(&case.sheet.template).into_owned();
        touched.push(("braces in braces", super::depth(&text).min(10).to_string()));
        touched.sort();
        touched.dedup();
        for kind in touched {
            *self.by_kind.entry(kind).or_default() += 1;
        }
    }

    pub fn print(&self) {
        let mut last = "";
        for ((kind, name), count) in &self.by_kind {
            if *kind != last {
                print!("{}{kind}:", if last.is_empty() { "" } else { "\n" });
                last = kind;
            }
            print!(" {}={count}", name.trim());
        }
        println!();
    }
}

/// The segments as they are ruled, and the crate's where a limit of the port is crossed.
fn dump(template: &[u8]) -> String {
    let ruled = ruling::template(template, Names::All);
    ruled.map_or_else(|_| judge::segments(template), |reading| tree::dump(&reading.segments))
}

fn summary(answer: &Answer) -> String {
    match answer {
        _ if answer.panicked() => "panic".to_string(),
        Answer::Read(_) => "lines".to_string(),
        Answer::Refused(number) => format!("! {number}"),
        Answer::Panic => unreachable!("counted above"),
    }
}

fn group_depth(dump: &str) -> usize {
    let (mut open, mut most) = (0, 0);
    for c in dump.chars() {
        match c {
            '(' => open += 1,
            ')' => open -= 1,
            _ => {}
        }
        most = most.max(open);
    }
    most
}

/// Reads the dump: its texts are hexadecimal, so a bracket always opens a format.
fn touch_segments(dump: &str, touched: &mut Vec<(&'static str, String)>) {
    let mut rest = dump;
    while let Some((before, after)) = rest.split_once('[') {
        let name = before.rsplit(['s', 'g', ';', '(']).next().unwrap_or("");
        let name = if before.ends_with('s') { "s" } else { name };
        touched.push(("specifier", if name.is_empty() { "group" } else { name }.to_string()));
        let (format, next) = after.split_once(']').expect("a format is closed");
        let parts: Vec<&str> = format.split(',').collect();
        if parts[0] != "-" {
            let padding = if parts[2] == "z" { "zero" } else { "space" };
            let alignment = if parts[1] == "-" { "none" } else { parts[1] };
            touched.push(("width", format!("{alignment} {padding}")));
        }
        if parts[3] != "-" {
            touched.push(("colour", parts[3].to_string()));
        }
        for letter in parts[4].chars().filter(|c| *c != '-') {
            touched.push(("style", letter.to_string()));
        }
        rest = next;
    }
}
