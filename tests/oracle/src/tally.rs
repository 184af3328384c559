//! Counts of what was compared, and the smallest inputs that differ.
use crate::cases::{Element, GUARD};
use crate::Planes;
use std::collections::BTreeMap;
use std::process::ExitCode;

#[derive(Default)]
pub struct Tally {
    pub calls: u64,
    by_number: [u64; 23],
    alone: BTreeMap<&'static str, u64>,
    different: u64,
    smallest: Vec<(usize, String)>,
}

impl Tally {
    /// Counts a call that was answered with `number`.
    pub fn count(&mut self, number: u64) {
        self.calls += 1;
        self.by_number[number as usize] += 1;
    }

    /// Counts the setting, if there is one, for which alone a call was refused.
    pub fn count_alone(&mut self, setting: Option<&'static str>) {
        setting.into_iter().for_each(|name| *self.alone.entry(name).or_default() += 1);
    }

    /// Counts a difference, on an input of `size` samples.
    pub fn differ(&mut self, size: usize, text: impl FnOnce() -> String) {
        self.different += 1;
        let full = self.smallest.len() == 5;
        if !full || self.smallest.iter().any(|(other, _)| size < *other) {
            self.smallest.push((size, text()));
            self.smallest.sort_by_key(|(size, _)| *size);
            self.smallest.truncate(5);
        }
    }

    /// Prints all counts; a failure where something differed.
    pub fn finish(self, what: &str) -> ExitCode {
        status(self.print(what))
    }

    /// Prints all counts; whether nothing differed.
    pub fn print(&self, what: &str) -> bool {
        println!("{what}: {} compared, {} different", self.calls, self.different);
        let answers = self.by_number.iter().enumerate().filter(|(_, calls)| **calls > 0);
        let answers: Vec<String> =
            answers.map(|(number, calls)| format!("{number}: {calls}")).collect();
        println!("  calls by number: {}", answers.join(", "));
        for (setting, calls) in &self.alone {
            println!("  of number 2, for the {setting} alone: {calls}");
        }
        for (_, text) in &self.smallest {
            println!("different:\n{text}");
        }
        self.different == 0
    }
}

/// A success where nothing differed.
pub fn status(same: bool) -> ExitCode {
    ExitCode::from(u8::from(!same))
}

/// The samples of small planes, and which planes were written to.
pub fn samples_of<T: Element>(planes: &Planes<T>, lent: &Planes<T>) -> String {
    let mut text = String::new();
    for (name, (before, after)) in ["Y", "U", "V"].iter().zip(planes.iter().zip(lent)) {
        if before.len() <= 100 {
            text += &format!("  {name} {before:?}\n");
        }
        if before != after {
            text += &format!("  {name} was written to\n");
        }
    }
    text
}

/// The elements of each plane that differ, by the planes' names.
pub fn differing_planes<T: Element>(
    names: [&str; 3], before: &Planes<T>, ours: &Planes<T>, wanted: &Planes<T>,
) -> String {
    let differ = (0..3).filter(|i| ours[*i] != wanted[*i]);
    differ
        .map(|i| format!("  {}:{}", names[i], differing(&before[i], &ours[i], &wanted[i])))
        .collect()
}

/// The destination's elements that differ; places before and after it are outside the buffer.
pub fn differing<T: Element>(before: &[T], ours: &[T], wanted: &[T]) -> String {
    let places: Vec<usize> = (0..before.len()).filter(|i| ours[*i] != wanted[*i]).collect();
    let mut text = format!("  destination elements that differ: {}\n", places.len());
    for i in places.into_iter().take(5) {
        let place = i as i64 - GUARD as i64;
        let (before, ours, wanted) = (before[i], ours[i], wanted[i]);
        text += &format!("    at {place}: before {before:?}, ours {ours:?}, wanted {wanted:?}\n");
    }
    text
}
