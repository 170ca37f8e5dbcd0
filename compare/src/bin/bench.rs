//! Times the crate and the port side by side: `bench [--rounds N] [--svg FILE]`.
//!
//! Both run in one process on the same buffers, turn about. The time is the thread's own
//! on the processor, and of each the least of all rounds counts: what else the machine
//! does can only add to it.

use std::env::args;
use std::fs;
use std::hint::black_box;
use std::process::exit;
use std::time::Duration;

use compare::clock::thread_time;
use compare::library;
use compare::plot::{plot, Curve};
use compare::rng::Rng;
use yegetmur::capi::{self, STATE_WORDS};
use yegetmur::frame::{self, Fields, BESIDE, HEAD};
use yegetmur::{Guard, Link};
use zuc::zuc256::Zuc256Keystream;

/// Bytes of a message or a buffer.
const SIZES: [usize; 6] = [16, 64, 256, 1 << 10, 1 << 16, 1 << 20];

/// Bytes of a frame: the last is the longest.
const FRAMES: [usize; 3] = [64, 1024, frame::LONGEST];

/// How long one measurement lasts at least: far above what the clock can tell.
const LEAST: Duration = Duration::from_micros(200);

/// One thing to time on one side.
type Work<'a> = &'a mut dyn FnMut(&mut Buffers, usize);

struct Options {
    rounds: usize,
    svg: Option<String>,
}

/// What both sides work on.
struct Buffers {
    bytes: Vec<u8>,
    words: Vec<u32>,
}

const KEY: [u8; 16] = [0x3d; 16];
const OTHER_KEY: [u8; 16] = [0x84; 16];
const LONG_KEY: [u8; 32] = [0x3d; 32];
const LONG_IV: [u8; 23] = [0x84; 23];

/// The work, as a user writes it, with the crate or with the port.
macro_rules! side {
    ($side:ident, $library:ident) => {
        mod $side {
            use std::hint::black_box;

            use super::{Buffers, KEY, LONG_IV, LONG_KEY};
            use $library::eea3::eea3_xor_inplace;
            use $library::eia3::Eia3Mac;
            use $library::zuc256::Zuc256Mac;

            pub use $library::zuc128::Zuc128Keystream;

            pub fn eea3(buffers: &mut Buffers, size: usize) {
                eea3_xor_inplace(7, 5, 1, &KEY, &mut buffers.bytes[..size], 8 * size);
            }

            pub fn eia3(buffers: &mut Buffers, size: usize) {
                black_box(Eia3Mac::compute(7, 5, 1, &KEY, &buffers.bytes[..size], 8 * size));
            }

            pub fn tag32(buffers: &mut Buffers, size: usize) {
                let message = &buffers.bytes[..size];
                black_box(Zuc256Mac::<u32>::compute(&LONG_KEY, &LONG_IV, message, 8 * size));
            }

            pub fn tag64(buffers: &mut Buffers, size: usize) {
                let message = &buffers.bytes[..size];
                black_box(Zuc256Mac::<u64>::compute(&LONG_KEY, &LONG_IV, message, 8 * size));
            }

            pub fn tag128(buffers: &mut Buffers, size: usize) {
                let message = &buffers.bytes[..size];
                black_box(Zuc256Mac::<u128>::compute(&LONG_KEY, &LONG_IV, message, 8 * size));
            }
        }
    };
}

side!(on_crate, zuc);
side!(on_port, yegetmur);

fn main() {
    let options = options();
    println!("{}", machine());
    let mut buffers = Buffers { bytes: Rng::new(1).bytes(1 << 20), words: vec![0; 1 << 18] };
    let curves = all_sizes(options.rounds, &mut buffers);
    frames(options.rounds, &mut buffers);
    starts(options.rounds, &mut buffers);
    one_call(options.rounds, &mut buffers);
    single_draw(options.rounds, &mut buffers);
    guard_call(options.rounds, &mut buffers);
    if let Some(file) = options.svg {
        fs::write(&file, plot(&SIZES, &curves, &machine())).unwrap_or_else(|error| {
            eprintln!("{file}: {error}");
            exit(2);
        });
    }
}

/// Everything that has a size, at each: a table, and the ratios.
fn all_sizes(rounds: usize, buffers: &mut Buffers) -> Vec<Curve> {
    let mut crate_zuc = on_crate::Zuc128Keystream::new(&KEY, &KEY);
    let mut port_zuc = on_port::Zuc128Keystream::new(&KEY, &KEY);
    let mut crate_words = |buffers: &mut Buffers, size: usize| {
        for word in &mut buffers.words[..size / 4] {
            *word = crate_zuc.generate();
        }
    };
    let mut port_words = |buffers: &mut Buffers, size: usize| {
        // a start is spent after some hundred rounds
        if port_zuc.try_generate_into(&mut buffers.words[..size / 4]).is_err() {
            port_zuc = on_port::Zuc128Keystream::new(&KEY, &KEY);
        }
    };
    let work: [(&'static str, Work, Work); 6] = [
        ("words", &mut crate_words, &mut port_words),
        ("EEA3, start and mask", &mut on_crate::eea3, &mut on_port::eea3),
        ("EIA3 tag", &mut on_crate::eia3, &mut on_port::eia3),
        ("ZUC-256 tag, 32 bits", &mut on_crate::tag32, &mut on_port::tag32),
        ("ZUC-256 tag, 64 bits", &mut on_crate::tag64, &mut on_port::tag64),
        ("ZUC-256 tag, 128 bits", &mut on_crate::tag128, &mut on_port::tag128),
    ];

    println!("{:<24} {:>8} {:>11} {:>11} {:>7}", "", "bytes", "crate ns/B", "port ns/B", "ratio");
    work.map(|(name, original, port)| {
        let ratios = SIZES.map(|size| {
            let (crate_ns, port_ns) = least(rounds, buffers, size, original, port);
            row(name, size, crate_ns / size as f64, port_ns / size as f64);
            port_ns / crate_ns
        });
        Curve { name, ratios }
    })
    .into()
}

fn row(name: &str, size: usize, crate_ns: f64, port_ns: f64) {
    let ratio = port_ns / crate_ns;
    println!("{name:<24} {size:>8} {crate_ns:>11.3} {port_ns:>11.3} {ratio:>7.3}");
}

/// Frames written and read, beside the crate's EEA3 and EIA3 of the same body. Before each run
/// both sides have the body put where they work, since a frame that was read is plain.
fn frames(rounds: usize, buffers: &mut Buffers) {
    println!("{:<24} {:>8} {:>11} {:>11} {:>7}", "", "bytes", "crate ns", "port ns", "ratio");
    for size in FRAMES {
        let fields = Fields { count: 7, bearer: 5, direction: 1, bits: 8 * (size - BESIDE) as u32 };
        let mut sealed = buffers.bytes[..size].to_vec();
        frame::seal(&KEY, &OTHER_KEY, fields, &mut sealed).expect("fields and lengths fit");
        let (body, plain) = (HEAD..size - 4, buffers.bytes[..size].to_vec());

        let masked_and_tagged: Work = &mut |buffers, size| {
            buffers.bytes[..size].copy_from_slice(&plain);
            on_crate::eea3(buffers, size - BESIDE);
            on_crate::eia3(buffers, size - BESIDE);
        };
        let written: Work = &mut |buffers, size| {
            let frame = &mut buffers.bytes[..size];
            frame.copy_from_slice(&plain);
            _ = black_box(frame::seal(&KEY, &OTHER_KEY, fields, frame));
        };
        let (crate_ns, port_ns) = least(rounds, buffers, size, masked_and_tagged, written);
        row("frame, written", size, crate_ns, port_ns);

        let read: Work = &mut |buffers, size| {
            let frame = &mut buffers.bytes[..size];
            frame.copy_from_slice(&sealed);
            _ = black_box(frame::open(&KEY, &OTHER_KEY, frame));
        };
        let (crate_ns, port_ns) = least(rounds, buffers, size, masked_and_tagged, read);
        row("frame, read", size, crate_ns, port_ns);
        assert_eq!(buffers.bytes[body.clone()], plain[body], "a frame was not read");
    }
}

/// A start by itself: the crate's generator, and the port's into a C array.
fn starts(rounds: usize, buffers: &mut Buffers) {
    let mut state = [0; STATE_WORDS];
    let original: Work = &mut |_, _| {
        black_box(on_crate::Zuc128Keystream::new(black_box(&KEY), black_box(&KEY)));
    };
    let port: Work = &mut |_, _| {
        black_box(capi::zuc128_start(black_box(&mut state), black_box(&KEY), black_box(&KEY)));
    };
    let (crate_ns, port_ns) = least(rounds, buffers, KEY.len(), original, port);
    println!("{:<24} {:>8} {:>11} {:>11} {:>7}", "", "bytes", "crate ns", "port ns", "ratio");
    row("ZUC-128, started", KEY.len(), crate_ns, port_ns);

    let original: Work = &mut |_, _| {
        black_box(Zuc256Keystream::new(black_box(&LONG_KEY), black_box(&LONG_IV)));
    };
    let port: Work = &mut |_, _| {
        let (key, iv) = (black_box(&LONG_KEY), black_box(&LONG_IV));
        black_box(capi::zuc256_start(black_box(&mut state), key, iv));
    };
    let (crate_ns, port_ns) = least(rounds, buffers, LONG_KEY.len(), original, port);
    row("ZUC-256, started", LONG_KEY.len(), crate_ns, port_ns);
}

/// EEA3 of 64 bytes through C: a start and a mask of it, and in one call; no crate.
fn one_call(rounds: usize, buffers: &mut Buffers) {
    let two: Work = &mut |buffers, size| {
        let (mut state, mut count) = ([0; STATE_WORDS], 0);
        black_box(capi::eea3_start(&mut state, 7, 5, 1, &KEY));
        let buffer = &mut buffers.bytes[..size];
        black_box(capi::zuc_mask_clean(&mut state, buffer, 8 * size, &mut count));
    };
    let one: Work = &mut |buffers, size| {
        let (buffer, mut drawn) = (&mut buffers.bytes[..size], 0);
        black_box(capi::eea3_mask_clean(7, 5, 1, &KEY, buffer, 8 * size, &mut drawn));
    };
    println!("{:<24} {:>8} {:>11} {:>11} {:>7}", "", "bytes", "two ns", "one ns", "ratio");
    for size in [16, 64] {
        let (two_ns, one_ns) = least(rounds, buffers, size, two, one);
        row("EEA3, in one call", size, two_ns, one_ns);
    }
}

/// One word at a time, as a call of its own.
fn single_draw(rounds: usize, buffers: &mut Buffers) {
    let mut crate_zuc = on_crate::Zuc128Keystream::new(&KEY, &KEY);
    let mut port_zuc = on_port::Zuc128Keystream::new(&KEY, &KEY);
    let original: Work = &mut |_, _| {
        black_box(black_box(&mut crate_zuc).generate());
    };
    let port: Work = &mut |_, _| {
        black_box(black_box(&mut port_zuc).generate());
    };
    let (crate_ns, port_ns) = least(rounds, buffers, 4, original, port);
    println!("{:<24} {:>8} {:>11} {:>11} {:>7}", "", "bytes", "crate ns", "port ns", "ratio");
    row("one draw, in place", 4, crate_ns, port_ns);
}

/// What the crate has not, beside a draw of the port: a COUNT asked of the guard, new or
/// seen, on each link of a table in turn.
fn guard_call(rounds: usize, buffers: &mut Buffers) {
    let mut port_zuc = on_port::Zuc128Keystream::new(&KEY, &KEY);
    let draw: Work = &mut |_, _| {
        black_box(black_box(&mut port_zuc).generate());
    };
    let mut links = vec![Link::default(); 1000];
    let mut guard = Guard::new(&mut links);
    let (mut at, mut count) = (0, 0u32);
    let accept: Work = &mut |_, _| {
        at = if at == 999 { 0 } else { at + 1 };
        count = count.wrapping_add(u32::from(at == 0));
        _ = black_box(black_box(&mut guard).accept(at, count & !1));
    };
    let (draw_ns, accept_ns) = least(rounds, buffers, 4, draw, accept);
    println!("{:<24} {:>8} {:>11} {:>11} {:>7}", "", "links", "draw ns", "accept ns", "ratio");
    row("one COUNT, guarded", 1000, draw_ns, accept_ns);
}

/// Nanoseconds of one run on each side: the least of all rounds, turn about.
fn least(rounds: usize, buffers: &mut Buffers, size: usize, one: Work, other: Work) -> (f64, f64) {
    let runs = enough(buffers, size, one).max(enough(buffers, size, other));
    let mut least = (f64::INFINITY, f64::INFINITY);
    for _ in 0..rounds {
        least.0 = least.0.min(timed(runs, buffers, size, one));
        least.1 = least.1.min(timed(runs, buffers, size, other));
    }
    least
}

/// How many runs last long enough to be measured.
fn enough(buffers: &mut Buffers, size: usize, work: Work) -> usize {
    let mut runs = 1;
    while timed(runs, buffers, size, work) * (runs as f64) < LEAST.as_nanos() as f64 {
        runs *= 2;
    }
    runs
}

/// Nanoseconds of one run, over so many.
fn timed(runs: usize, buffers: &mut Buffers, size: usize, work: Work) -> f64 {
    let begun = thread_time();
    for _ in 0..runs {
        work(black_box(buffers), size);
    }
    (thread_time() - begun).as_nanos() as f64 / runs as f64
}

/// The machine, and how the library was made.
fn machine() -> String {
    let cpus = fs::read_to_string("/proc/cpuinfo").unwrap_or_default();
    let model = cpus.lines().find_map(|line| line.strip_prefix("model name"));
    let model = model.map_or("", |rest| rest.trim_start_matches([' ', '\t', ':']));
    format!("{} {model}; {}", std::env::consts::ARCH, library())
}

fn options() -> Options {
    let mut options = Options { rounds: 25, svg: None };
    let mut words = args().skip(1);
    while let Some(word) = words.next() {
        match (word.as_str(), words.next()) {
            ("--rounds", Some(rounds)) if rounds.parse::<usize>().is_ok_and(|n| n > 0) => {
                options.rounds = rounds.parse().expect("a number");
            }
            ("--svg", Some(file)) => options.svg = Some(file),
            _ => {
                eprintln!("usage: bench [--rounds N] [--svg FILE]");
                exit(2);
            }
        }
    }
    options
}
