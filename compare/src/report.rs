//! What is tried and what came of it: a line while it runs, a table at the end.

use std::fmt::Display;
use std::io::{stderr, IsTerminal, Write};
use std::time::{Duration, Instant};

use crate::check::Verdict;
use crate::quiet::caught;
use crate::shrink::{shrink, Shrinks};

/// One input, with all that is compared for it.
pub trait Trial: Shrinks + Display {
    fn verdict(&self) -> Verdict;
}

struct Section {
    name: &'static str,
    inputs: u64,
    differences: u64,
    took: Duration,
}

pub struct Report<T> {
    sections: Vec<Section>,
    smallest: Option<T>,
    begun: Instant,
    section_begun: Instant,
    line_at: Instant,
}

/// What differs for an input: a panic of the driver or the package is a difference too.
fn difference(input: &impl Trial) -> Option<String> {
    match caught(|| input.verdict()) {
        Some(verdict) => verdict.err(),
        None => Some("a panic where none is due".into()),
    }
}

impl<T: Trial> Report<T> {
    #[expect(clippy::new_without_default, reason = "it begins to measure")]
    pub fn new() -> Self {
        let now = Instant::now();
        Self { sections: Vec::new(), smallest: None, begun: now, section_begun: now, line_at: now }
    }

    pub fn elapsed(&self) -> Duration {
        self.begun.elapsed()
    }

    /// Begins a section of the table.
    pub fn section(&mut self, name: &'static str) {
        self.section_begun = Instant::now();
        self.sections.push(Section { name, inputs: 0, differences: 0, took: Duration::ZERO });
    }

    /// Tries one input within the section begun last.
    pub fn try_input(&mut self, input: T) {
        let failed = difference(&input).is_some();
        let section = self.sections.last_mut().expect("a section has begun");
        section.inputs += 1;
        section.took = self.section_begun.elapsed();
        if failed {
            section.differences += 1;
            if self.smallest.as_ref().is_none_or(|smallest| input.size() < smallest.size()) {
                self.smallest = Some(input);
            }
        }
        self.progress();
    }

    fn inputs(&self) -> u64 {
        self.sections.iter().map(|section| section.inputs).sum()
    }

    pub fn differences(&self) -> u64 {
        self.sections.iter().map(|section| section.differences).sum()
    }

    /// A line on a terminal is written over; elsewhere there is one now and then.
    fn progress(&mut self) {
        let terminal = stderr().is_terminal();
        let every = Duration::from_millis(if terminal { 200 } else { 10_000 });
        if self.line_at.elapsed() < every {
            return;
        }
        self.line_at = Instant::now();
        let name = self.sections.last().map_or("", |section| section.name);
        let (start, end) = if terminal { ("\r\x1b[K", "") } else { ("", "\n") };
        let (inputs, differences) = (self.inputs(), self.differences());
        let seconds = self.elapsed().as_secs();
        // a progress line that cannot be written is no reason to stop
        let _ = write!(
            stderr(),
            "{start}{seconds} s, {inputs} inputs, {differences} differences: {name}{end}"
        );
    }

    /// Prints the table, and the smallest failing input if there is one; answers whether
    /// all was the same.
    pub fn end(self, seed: u64) -> bool {
        if stderr().is_terminal() {
            let _ = write!(stderr(), "\r\x1b[K");
        }
        println!("{:<46} {:>10} {:>11} {:>8}", "", "inputs", "differences", "seconds");
        for Section { name, inputs, differences, took } in &self.sections {
            println!("{name:<46} {inputs:>10} {differences:>11} {:>8.1}", took.as_secs_f64());
        }
        let (inputs, differences) = (self.inputs(), self.differences());
        let seconds = self.elapsed().as_secs_f64();
        println!("{:<46} {inputs:>10} {differences:>11} {seconds:>8.1}", "all");
        println!("seed {seed}");
        let Some(failing) = self.smallest else {
            println!("no difference");
            return true;
        };
        let smallest = shrink(failing, |input: &T| difference(input).is_some());
        println!("\nthe smallest input that fails:\n  {smallest}");
        println!("  {}", difference(&smallest).expect("a failing input"));
        false
    }
}
