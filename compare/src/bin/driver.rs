//! Feeds the crate and the port the same inputs, and the port's guard and its frames and
//! their models the same calls:
//! `driver [--long MINUTES] [--seed SEED] [--stop]`.
//! Exits with 1 if anything differs, with 2 if it is called wrongly.

use std::env::args;
use std::process::exit;
use std::time::{Duration, SystemTime, UNIX_EPOCH};

use compare::fields::{Fields, FIELDS};
use compare::frame::Frame;
use compare::frames::{self, FRAMES};
use compare::input::Input;
use compare::plan::{self, SECTIONS};
use compare::report::{Report, Trial};
use compare::rng::Rng;
use compare::spent::{self, Spent};
use compare::turns;
use compare::walk::Walk;
use compare::walks::{self, WALKS};

/// Makes inputs and has each tried.
type Inputs<T> = fn(&mut Rng, &mut dyn FnMut(T));

struct Options {
    /// How long random inputs go on after the quick part.
    long: Duration,
    seed: u64,
    /// Whether to stop after the first section with a difference.
    stop: bool,
}

fn main() {
    let options = options();
    println!("zuc 0.4.1 and {}; seed {}", compare::library(), options.seed);
    let mut same = true;
    // the quick ones first
    for part in [guard, sealed, fields, limit, inputs] {
        same &= part(&mut Rng::new(options.seed), &options);
        if options.stop && !same {
            break;
        }
    }
    exit(i32::from(!same));
}

/// The sections of a list; after one with a difference no other, if that was asked.
fn sections<T: Trial>(
    report: &mut Report<T>,
    list: &[(&'static str, Inputs<T>)],
    rng: &mut Rng,
    options: &Options,
) {
    for (name, inputs) in list {
        report.section(name);
        inputs(rng, &mut |input| report.try_input(input));
        if options.stop && report.differences() > 0 {
            break;
        }
    }
}

/// All that the crate has; answers whether all was the same.
fn inputs(rng: &mut Rng, options: &Options) -> bool {
    let mut report = Report::<Input>::new();
    sections(&mut report, &SECTIONS, rng, options);
    if !options.long.is_zero() {
        report.section("random, to 1 MiB, for as long as was asked");
        let end = report.elapsed() + options.long;
        while report.elapsed() < end {
            let log = rng.pick(&[6, 11, 11, 16, 20]);
            report.try_input(plan::random(rng, log));
            report.try_input(turns::random(rng, log.min(14)));
        }
    }
    report.end(options.seed)
}

/// The guard, by walks over tables of links; answers whether all was the same.
fn guard(rng: &mut Rng, options: &Options) -> bool {
    let mut report = Report::<Walk>::new();
    sections(&mut report, &WALKS, rng, options);
    if !options.long.is_zero() {
        report.section("guard: random walks, a tenth of the time asked");
        let end = report.elapsed() + options.long / 10;
        while report.elapsed() < end {
            report.try_input(walks::random(rng));
        }
    }
    report.end(options.seed)
}

/// Strict forms, and EEA3 in one call; answers whether all was the same.
fn fields(rng: &mut Rng, options: &Options) -> bool {
    let mut report = Report::<Fields>::new();
    sections(&mut report, &FIELDS, rng, options);
    report.end(options.seed)
}

/// Frames, written and read; answers whether all was the same.
fn sealed(rng: &mut Rng, options: &Options) -> bool {
    let mut report = Report::<Frame>::new();
    sections(&mut report, &FRAMES, rng, options);
    if !options.long.is_zero() {
        report.section("frames: random, a tenth of the time asked");
        let end = report.elapsed() + options.long / 10;
        while report.elapsed() < end {
            let log = rng.pick(&[6, 11, 16]);
            report.try_input(frames::random(rng, log));
        }
    }
    report.end(options.seed)
}

/// The limit per start, from starts; answers whether all was the same.
fn limit(rng: &mut Rng, options: &Options) -> bool {
    let mut report = Report::<Spent>::new();
    report.section("limit: from a start, too many words");
    spent::refused(rng).into_iter().for_each(|trial| report.try_input(trial));
    if !options.long.is_zero() {
        report.section("limit: from a start, all 134217730 words");
        spent::reached(rng).into_iter().for_each(|trial| report.try_input(trial));
    }
    report.end(options.seed)
}

fn options() -> Options {
    let now = SystemTime::now().duration_since(UNIX_EPOCH);
    let seed = now.expect("a clock past 1970").as_nanos() as u64;
    let mut options = Options { long: Duration::ZERO, seed, stop: false };
    let mut words = args().skip(1);
    while let Some(word) = words.next() {
        match word.as_str() {
            "--long" => options.long = Duration::from_secs(60 * number(words.next())),
            "--seed" => options.seed = number(words.next()),
            "--stop" => options.stop = true,
            _ => usage(),
        }
    }
    options
}

fn number(word: Option<String>) -> u64 {
    word.and_then(|word| word.parse().ok()).unwrap_or_else(|| usage())
}

fn usage() -> ! {
    eprintln!("usage: driver [--long MINUTES] [--seed SEED] [--stop]");
    exit(2)
}
