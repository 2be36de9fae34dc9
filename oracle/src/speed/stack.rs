//! The stack that each entry needs: what lies below is painted before a call and looked at after it.

use super::gauge;
use super::texts::cycled;
use crate::sheet::{Layout, Sheet, COLOUR, PLACES, STRAIGHT, STRICT};
use pralakuon::entries;
use std::hint::black_box;
use std::thread;

/// More than any entry can need.
const PAINTED: usize = 256 << 10;
const PAINT: u8 = 0xa5;

/// More than the functions need that paint and look.
const OWN: usize = 512;

/// On a thread of its own, whose stack is there as a whole.
pub fn run() {
    let work = thread::Builder::new().stack_size(8 * PAINTED).spawn(print).expect("a thread");
    work.join().expect("its end");
}

fn print() {
    let templates = templates();
    let sheets = |settings| -> Vec<_> { templates.iter().map(|template| sheet(settings, template)).collect() };
    let record = gauge().write(Layout::Old);
    let mut out = vec![0; 1 << 20];
    println!("| entry | stack, bytes at most |\n|---|---|");
    let straight = COLOUR | STRAIGHT;
    for (name, settings) in [
        ("plain", 0),
        ("straight", straight),
        ("straight, strict", straight | STRICT),
        ("straight, places", straight | PLACES),
    ] {
        let used = most(&templates, |template| entries::line(template, settings, &record, &mut out));
        println!("| `pralakuon_line`, {name} | {used} |");
    }
    let used = most(&sheets(straight | PLACES), |sheet| entries::session(sheet, &mut out));
    println!("| `pralakuon_session`, places | {used} |");
    for (name, strict) in [("", 0), (", strict", STRICT)] {
        let used = most(&sheets(straight | strict), |sheet| entries::session(sheet, &mut out));
        println!("| `pralakuon_session`{name} | {used} |");
        println!("| `pralakuon_check`{name} | {} |", most(&templates, |template| entries::check(template, strict)));
        println!(
            "| `pralakuon_timestamp`{name} | {} |",
            most(&templates, |template| entries::timestamp(template, strict))
        );
    }
    println!("| `pralakuon_visible` | {} |", most(&templates, |text| entries::visible(text, &mut out)));
    println!("| `pralakuon_builtin` | {} |", most(&[vec![]], |_| entries::builtin(1, 1, 1, 1, &mut out)));
}

/// Deep ones, long ones, and both: calls go down with depth and along with members. The same with letters beyond ASCII,
/// which are looked for in a table.
fn templates() -> Vec<Vec<u8>> {
    let around = |inner: String, depth: usize| (0..depth).fold(inner, |inner, _| format!("{{[{{l}}{inner}%bold%>12}}"));
    let deep = around("{s:>9}".to_string(), 7);
    let broad = format!("{{[{}%red}}", "{s:bold}".repeat(62));
    let both = around(format!("{{{}%red}}", "{s:bold}".repeat(44)), 6);
    let after = "x{l}".repeat(21) + &deep;
    let plain = [deep, broad, both, after, "{s}".repeat(64), "{".repeat(1024), "{ff:bold:red:>12}{s}".to_string()];
    let named = "{Température {L}%bold} {s}".to_string();
    let lettered = [
        around("{s:é}".to_string(), 6),
        around("{s:é}".to_string(), 7),
        cycled(&named, 1024),
        format!("{{{}{{s}}}}", cycled("測", 1019)),
        named,
    ];
    plain.into_iter().chain(lettered).map(String::into_bytes).collect()
}

fn sheet(settings: u8, template: &[u8]) -> Vec<u8> {
    Sheet { settings, template: template.to_vec(), records: vec![gauge(); 3] }.write()
}

fn most(inputs: &[Vec<u8>], mut call: impl FnMut(&[u8]) -> u64) -> usize {
    inputs.iter().map(|input| used(|| call(input))).max().unwrap_or(0)
}

/// Bytes of stack that a call changed, below this function's own.
#[inline(never)]
fn used(call: impl FnOnce() -> u64) -> usize {
    let here = 0u8;
    let top = std::ptr::addr_of!(here) as usize;
    paint(top);
    black_box(call());
    top - lowest_changed(top)
}

/// Paints what lies below, but for the frame of this function itself.
#[inline(never)]
fn paint(top: usize) {
    for place in top - PAINTED..top - OWN {
        // Volatile, so that writing what is never read is not left out.
        unsafe { (place as *mut u8).write_volatile(PAINT) };
    }
}

#[inline(never)]
fn lowest_changed(top: usize) -> usize {
    let painted = |place: &usize| unsafe { (*place as *const u8).read_volatile() } == PAINT;
    (top - PAINTED..top - OWN).find(|place| !painted(place)).unwrap_or(top)
}
