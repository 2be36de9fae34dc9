//! Time taken so that one side can be held against the other: all have their turn in each round, and the least counts.

use std::hint::black_box;
use std::time::{Duration, Instant};

/// How many rounds there are, and how long a turn takes at least.
#[derive(Clone, Copy)]
pub struct Pace {
    rounds: usize,
    turn: Duration,
}

/// For times that are held against each other.
pub const USUAL: Pace = Pace { rounds: 7, turn: Duration::from_millis(4) };

/// For times that are taken from each other: each work is to have a turn that nothing disturbs. A machine can be slow
/// nine moments out of ten, and such a turn is likely only among many short ones.
pub const FINE: Pace = Pace { rounds: 1000, turn: Duration::from_micros(50) };

/// What is timed. The loop is the work's own, so that a list can have works of any kind and none pays for that.
pub trait Work {
    fn repeat(&mut self, count: u32);
}

impl<A, F: FnMut() -> A> Work for F {
    fn repeat(&mut self, count: u32) {
        for _ in 0..count {
            black_box(self());
        }
    }
}

/// Works whose times are seen together.
pub type Works<'a, const N: usize> = [Box<dyn Work + 'a>; N];

/// Nanoseconds a call of each. In each round all rows have their turn, and the works of a row follow each other: a slow
/// moment of the machine meets all of them, and one that lasts for long meets no row alone.
pub fn all_in_turn<const N: usize>(rows: Vec<Works<'_, N>>, pace: Pace) -> Vec<[f64; N]> {
    let mut rows: Vec<_> = rows.into_iter().map(|row| row.map(|work| Timed::new(work, pace.turn))).collect();
    for _ in 0..pace.rounds {
        rows.iter_mut().flatten().for_each(Timed::turn);
    }
    rows.into_iter().map(|row| row.map(|timed| timed.least)).collect()
}

/// Nanoseconds a call of each of two.
pub fn in_turn<A, B>(first: impl FnMut() -> A, second: impl FnMut() -> B) -> (f64, f64) {
    let [first, second] = all_in_turn(vec![[Box::new(first), Box::new(second)]], USUAL)[0];
    (first, second)
}

/// Nanoseconds a call.
pub fn alone<A>(work: impl FnMut() -> A) -> f64 {
    in_turn(work, || ()).0
}

/// A work, how many calls fill its turn, and the least time of a call so far.
struct Timed<'a> {
    work: Box<dyn Work + 'a>,
    calls: u32,
    least: f64,
}

impl<'a> Timed<'a> {
    fn new(mut work: Box<dyn Work + 'a>, turn: Duration) -> Self {
        let mut calls = 1;
        while time(&mut *work, calls) < turn && calls <= 1 << 24 {
            calls *= 2;
        }
        Timed { work, calls, least: f64::MAX }
    }

    /// After another work's turn the first call is slow, and not timed.
    fn turn(&mut self) {
        self.work.repeat(1);
        let time = time(&mut *self.work, self.calls).as_nanos() as f64;
        self.least = self.least.min(time / f64::from(self.calls));
    }
}

fn time(work: &mut dyn Work, calls: u32) -> Duration {
    let begun = Instant::now();
    work.repeat(calls);
    begun.elapsed()
}

/// Three digits that matter.
pub fn shown(number: f64) -> String {
    let places = match number {
        n if n >= 100.0 => 0,
        n if n >= 10.0 => 1,
        n if n >= 1.0 => 2,
        _ => 3,
    };
    format!("{number:.places$}")
}
