//! How the port's time grows, and what it is held to: bytes times depth.

use super::gauge;
use super::texts::cycled;
use super::timing::{alone, in_turn, shown};
use crate::sheet::{Layout, Record, COLOUR, STRAIGHT, STRICT};
use pralakuon::entries;
use std::hint::black_box;

/// The longest line of the tables has some 200,000 bytes.
const ROOM: usize = 1 << 20;

/// A size, a template, a record, and how deep the template goes.
type Row = (usize, String, Record, usize);

pub fn run() {
    reading();
    let sizes = [16, 64, 256, 1024, 4096];
    let depths = [1, 2, 3, 4, 5, 6, 7, 8];
    table("message, bytes", &sizes.map(|n| (n, "[{L}] {s}".to_string(), saying("m", n), 1)));
    table(
        "message of resets, bytes",
        &sizes.map(|n| (n, "{[{L}] {s}%bold%>500}".to_string(), saying("\x1b[0m", n / 4), 2)),
    );
    table("segments", &[1, 2, 4, 8, 16, 32, 64].map(|n| (n, "{s:bold:>40}".repeat(n), gauge(), 1)));
    table("members of one group", &[1, 2, 4, 8, 16, 32, 62].map(|n| (n, group_of(n), gauge(), 2)));
    table("depth", &depths.map(|n| (n, tower("[", "%>512", n), gauge(), n)));
    table(
        "depth, an open sequence before each group",
        &depths.map(|n| (n, tower("\x1b[", "%>512", n), saying("m", 4096), n)),
    );
    table(
        "depth, a message of resets in coloured groups",
        &depths.map(|n| (n, tower("-", "%bold", n), saying("\x1b[0m", 1024), n)),
    );
}

/// A text n times as the message.
fn saying(text: &str, n: usize) -> Record {
    Record { message: text.repeat(n).into_bytes(), ..gauge() }
}

fn group_of(members: usize) -> String {
    format!("{{[{}%red%^512}}", "{s:bold}".repeat(members))
}

/// Groups in groups, so that braces stand n deep.
fn tower(text: &str, parameter: &str, n: usize) -> String {
    (1..n).fold("{s}".to_string(), |inner, _| format!("{{{text}{{l}}{inner}{parameter}}}"))
}

/// Reading templates of 1,024 bytes that are made to be slow. Of those that are refused the strict edition looks at no more.
fn reading() {
    let check = |template: &[u8], settings| entries::check(black_box(template), settings);
    let text = alone(|| check(&[b'x'; 1024], 0));
    println!("| reading 1,024 bytes | ns | times plain text | strict, ns | strict / first |\n|---|---|---|---|---|");
    for (name, template) in hostile() {
        assert_eq!(template.len(), 1024, "{name}");
        let (first, strict) = in_turn(|| check(&template, 0), || check(&template, STRICT));
        println!(
            "| {name} | {} | {} | {} | {} |",
            shown(first),
            shown(first / text),
            shown(strict),
            shown(strict / first)
        );
    }
    println!();
}

fn hostile() -> Vec<(&'static str, Vec<u8>)> {
    let filled = |before: &str, filling: &str, after: &str| {
        let room = 1024 - before.len() - after.len();
        [before, &cycled(filling, room), after].concat().into_bytes()
    };
    let repeated = |piece: &str| filled("", piece, "");
    vec![
        ("text", repeated("x")),
        ("`{`", repeated("{")),
        ("`{s`", repeated("{s")),
        ("`{\\`", repeated("{\\")),
        ("`{s`, colons, `}`", filled("{s", ":", "}")),
        ("`{s`, spaces, `}`", filled("{s", " ", "}")),
        ("`{s}`, one brace round text", filled("{", "x", "{s}}")),
        ("`{s}`, eight braces round text", filled(&("{[".repeat(7) + "{s}"), "x", &"}".repeat(7))),
        ("`{s}`, eight braces round `{l}` and text", filled(&("{[{l}".repeat(7) + "{s}"), "x", &"}".repeat(7))),
        ("`{s}`, eight braces round `%`", filled(&"{x".repeat(8), "%", &"}".repeat(8))),
        ("text of `測`", repeated("測")),
        ("`{s`, `é`, `}`", filled("{s", "é", "}")),
        ("`{s}`, one brace round `測`", filled("{", "測", "{s}}")),
    ]
}

/// For each size the time, and the time for a byte at a level, which must not grow. The mode is straight.
fn table(name: &str, rows: &[Row]) {
    println!("| {name} | template, bytes | line, bytes | ns | ns for a byte at a level |\n|---|---|---|---|---|");
    let mut out = vec![0; ROOM];
    for (size, template, record, depth) in rows {
        let record = record.write(Layout::Old);
        let mut call =
            || entries::line(black_box(template.as_bytes()), COLOUR | STRAIGHT, black_box(&record), &mut out);
        let answer = call();
        assert_eq!(entries::refusal_of(answer), 0, "a line: {template:?}");
        let length = entries::length_of(answer);
        let time = alone(call);
        let bytes = template.len() + record.len() + length;
        println!(
            "| {size} | {} | {length} | {} | {} |",
            template.len(),
            shown(time),
            shown(time / (bytes * depth) as f64)
        );
    }
    println!();
}
