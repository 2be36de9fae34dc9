//! What a comparison found: counts, and the partings that are not listed.

use super::case::Seen;
use super::heads::{Judged, Way};
use super::listed;
use super::make::KINDS;
use super::places::Placed;
use super::reports::Reported;
use super::ruled::Strictly;
use std::collections::{BTreeMap, BTreeSet};

/// So many are printed in full.
const SHOWN: usize = 5;

/// By length and then by bytes.
type Least = (usize, Vec<u8>);

#[derive(Default)]
pub struct Found {
    kinds: [u64; KINDS.len()],
    /// Line calls and records of sheets by what they owe, 0 for a line.
    answers: [u64; 18],
    /// Templates by what the strict edition makes of them.
    strictly: [u64; Strictly::NAMES.len()],
    listed: [u64; listed::NAMES.len()],
    /// Templates that the name `d` changes, by how it does: how many, and the least.
    ways: BTreeMap<Way, (u64, Least)>,
    /// Lines by such templates, by who judges them.
    heads: [u64; Judged::NAMES.len()],
    /// Lines in the places rule, by what it makes of them.
    places: [u64; Placed::NAMES.len()],
    /// Lines whose message has the marks of a comparison report, by who judges them.
    reports: [u64; Reported::NAMES.len()],
    parted: BTreeSet<u64>,
    texts: BTreeMap<u64, String>,
}

impl Found {
    pub fn count_kind(&mut self, kind: usize) {
        self.kinds[kind] += 1;
    }

    pub fn count(&mut self, seen: &Seen) {
        seen.answers.iter().for_each(|number| self.answers[usize::from(*number)] += 1);
        seen.strictly.iter().for_each(|strictly| self.strictly[*strictly as usize] += 1);
        seen.listed.iter().for_each(|listed| self.listed[*listed as usize] += 1);
        seen.ways.iter().for_each(|(way, template)| self.count_way(*way, 1, (template.len(), template.clone())));
        seen.heads.iter().for_each(|judged| self.heads[*judged as usize] += 1);
        seen.places.iter().for_each(|placed| self.places[*placed as usize] += 1);
        seen.reports.iter().for_each(|reported| self.reports[*reported as usize] += 1);
    }

    fn count_way(&mut self, way: Way, count: u64, template: Least) {
        let (sum, least) = self.ways.entry(way).or_insert_with(|| (0, template.clone()));
        *sum += count;
        if template < *least {
            *least = template;
        }
    }

    pub fn part(&mut self, index: u64, text: String) {
        self.parted.insert(index);
        if self.texts.len() < SHOWN {
            self.texts.entry(index).or_insert(text);
        }
    }

    pub fn add(&mut self, other: Found) {
        let sum = |into: &mut [u64], from: &[u64]| into.iter_mut().zip(from).for_each(|(into, from)| *into += from);
        sum(&mut self.kinds, &other.kinds);
        sum(&mut self.answers, &other.answers);
        sum(&mut self.strictly, &other.strictly);
        sum(&mut self.listed, &other.listed);
        sum(&mut self.heads, &other.heads);
        sum(&mut self.places, &other.places);
        sum(&mut self.reports, &other.reports);
        for (way, (count, least)) in other.ways {
            self.count_way(way, count, least);
        }
        self.parted.extend(other.parted);
        for (index, text) in other.texts {
            self.part(index, text);
        }
    }

    /// True where nothing parted but what is listed.
    pub fn print(&self, count: u64) -> bool {
        for (index, text) in &self.texts {
            println!("case {index}: {text}\n");
        }
        print_counts("case", &KINDS.map(str::to_string), &self.kinds);
        let answers: Vec<String> =
            (0..18).map(|number| if number == 0 { "line".to_string() } else { format!("refusal {number}") }).collect();
        print_counts("answer", &answers, &self.answers);
        print_counts("strict edition", &Strictly::NAMES.map(str::to_string), &self.strictly);
        print_counts("listed difference", &listed::NAMES.map(str::to_string), &self.listed);
        for (way, (count, (_, template))) in &self.ways {
            println!("listed difference: {way} {count}, such as `{}`", template.escape_ascii());
        }
        print_counts("line with d as a name", &Judged::NAMES.map(str::to_string), &self.heads);
        print_counts("line in the places rule", &Placed::NAMES.map(str::to_string), &self.places);
        print_counts("line of a comparison", &Reported::NAMES.map(str::to_string), &self.reports);
        println!("{count} cases, {} differences not listed", self.parted.len());
        self.parted.is_empty()
    }
}

fn print_counts(what: &str, names: &[String], counts: &[u64]) {
    for (name, count) in names.iter().zip(counts).filter(|(_, count)| **count > 0) {
        println!("{what}: {name} {count}");
    }
}
