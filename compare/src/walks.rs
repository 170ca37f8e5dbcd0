//! Which walks over a guard's table are tried.

use yegetmur::Link;

use crate::rng::Rng;
use crate::walk::{Call, Walk};

/// What is done with a walk.
pub type Try<'a> = &'a mut dyn FnMut(Walk);

/// Makes walks and has each tried.
pub type Walks = fn(&mut Rng, Try);

pub const WALKS: [(&str, Walks); 6] = [
    ("guard: every walk of 1 to 4 calls, 2 links", short_walks),
    ("guard: two counts, every distance 0 to 70", distances),
    ("guard: any link, every distance 0 to 70", lent_links),
    ("guard: places at and past the end", places),
    ("guard: random links, two calls", random_links),
    ("guard: random walks, 0 to 300 links", random_walks),
];

const LAST: u32 = u32::MAX;

/// Distances about the window's ends: from 70 below its lowest COUNT, which is 63 below
/// the highest, to 70 above the highest.
fn about(highest: u32) -> impl Iterator<Item = u32> {
    (-133..=70).filter_map(move |d| u32::try_from(i64::from(highest) + d).ok())
}

fn fresh(n: usize) -> Vec<Link> {
    vec![Link::default(); n]
}

fn accept(at: usize, count: u32) -> Call {
    Call::Accept { at, count }
}

/// Every walk over two fresh links and a place past them, with the counts at the edges.
fn short_walks(_: &mut Rng, attempt: Try) {
    let mut calls = Vec::new();
    for at in 0..3 {
        calls.push(Call::Rekey { at });
        calls.extend([0, 1, 63, 64, 65, 128, LAST].map(|count| accept(at, count)));
    }
    let mut walks = vec![Vec::new()];
    for length in 1..=4 {
        // the fourth call is on the first link alone: there are enough walks
        let calls = if length < 4 { &calls[..] } else { &calls[..8] };
        walks = walks
            .iter()
            .flat_map(|walk| calls.iter().map(move |&call| [walk.as_slice(), &[call]].concat()))
            .collect();
        for calls in &walks {
            attempt(Walk { links: fresh(2), calls: calls.clone() });
        }
    }
}

/// A COUNT on a fresh link, one about its window, both again, and the same re-keyed.
fn distances(_: &mut Rng, attempt: Try) {
    for first in
        [0, 1, 62, 63, 64, 65, 1000, 1 << 31, LAST - 70, LAST - 64, LAST - 63, LAST - 1, LAST]
    {
        for second in about(first) {
            let both = [accept(1, first), accept(1, second)];
            let calls =
                [&both[..], &both, &[accept(0, second), Call::Rekey { at: 1 }], &both].concat();
            attempt(Walk { links: fresh(3), calls });
        }
    }
}

/// Links of every shape, also such as no calls leave, with a COUNT about the window.
fn lent_links(rng: &mut Rng, attempt: Try) {
    let mut shapes = vec![0, u64::MAX, 0xaaaa_aaaa_aaaa_aaaa, 0x5555_5555_5555_5555];
    shapes.extend((0..64).map(|i| 1 << i));
    shapes.extend((0..64).map(|i| !(1 << i)));
    for highest in [0, 1, 30, 62, 63, 64, 65, 1000, LAST - 1, LAST] {
        for &accepted in &shapes {
            let odd = Link { highest: rng.number() as u32, accepted: rng.number() };
            for count in about(highest) {
                let links = vec![odd, Link { highest, accepted }, odd];
                attempt(Walk { links, calls: vec![accept(1, count), accept(1, count)] });
            }
        }
    }
}

/// Tables of 0 to 5 links, and every place about their ends.
fn places(rng: &mut Rng, attempt: Try) {
    for n in 0..=5 {
        let past = [n, n + 1, 63, 64, 1 << 32, (1 << 32) + 1, 1 << 60, 1 << 63, usize::MAX];
        for at in (0..n).chain(past) {
            let links: Vec<Link> = (0..n).map(|_| any_link(rng)).collect();
            let count = rng.number() as u32;
            for calls in [
                vec![accept(at, count)],
                vec![Call::Rekey { at }],
                vec![Call::Rekey { at }, accept(at, 0)],
            ] {
                attempt(Walk { links: links.clone(), calls });
            }
        }
    }
}

fn any_link(rng: &mut Rng) -> Link {
    let highest = rng.number() as u32 >> rng.below(32);
    Link { highest, accepted: rng.number() }
}

/// Any numbers in the table, and a COUNT about the window.
fn random_links(rng: &mut Rng, attempt: Try) {
    for _ in 0..20_000 {
        let links: Vec<Link> = (0..3).map(|_| any_link(rng)).collect();
        let at = rng.below(3);
        let near: Vec<u32> = about(links[at].highest).collect();
        let calls = vec![accept(at, rng.pick(&near)), accept(at, rng.pick(&near))];
        attempt(Walk { links, calls });
    }
}

fn random_walks(rng: &mut Rng, attempt: Try) {
    for _ in 0..4_000 {
        attempt(random(rng));
    }
}

/// A walk with jumps back and forth on a table of fresh links.
pub fn random(rng: &mut Rng) -> Walk {
    let n = rng.pick(&[0, 1, 1, 2, 5, 300]);
    let busy = n.min(3);
    // where each of the busy links is about, so that windows are met and not only passed
    let mut about = [0u32; 3];
    let calls = (0..rng.below(300))
        .map(|_| {
            let at = if rng.below(20) == 0 {
                rng.pick(&[n, n + 1, usize::MAX])
            } else {
                rng.below(busy.max(1))
            };
            if rng.below(40) == 0 {
                return Call::Rekey { at };
            }
            let here = &mut about[at.min(2)];
            *here = jump(rng, *here);
            accept(at, *here)
        })
        .collect();
    Walk { links: fresh(n), calls }
}

/// The next COUNT: mostly near, at times far ahead or back, about 0, about the last.
fn jump(rng: &mut Rng, from: u32) -> u32 {
    let near = rng.below(141) as u32;
    match rng.below(16) {
        0 => near,
        1 => LAST - near,
        2 => rng.number() as u32,
        3 => from.saturating_add(rng.below(5000) as u32),
        4 => from.saturating_sub(rng.below(5000) as u32),
        5 | 6 => from,
        7..=9 => from.saturating_add(1 + near % 4),
        _ => from.saturating_add(near).saturating_sub(70),
    }
}
