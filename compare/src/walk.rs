//! Calls on one table of links, made on the port's guard, through its C interface and
//! through its Rust package, and on a model written from request 2026-03: of each link
//! the set of the counts that were accepted.

use std::collections::BTreeSet;
use std::fmt;

use yegetmur::{capi, Guard, Link, Refusal};

use crate::check::Verdict;
use crate::report::Trial;
use crate::shrink::Shrinks;

pub const BAD_REUSE: u32 = 11;
pub const BAD_AGE: u32 = 12;
pub const BAD_LINK: u32 = 13;

/// How far below the highest a COUNT may lie.
const OLDEST: u64 = 63;

/// What stands on both sides of a lent table, and no call may touch.
const DIRT: Link = Link { highest: 0xa5a5_a5a5, accepted: 0xa5a5_a5a5_a5a5_a5a5 };

#[derive(Clone, Copy, Debug, PartialEq, Eq)]
pub enum Call {
    Accept { at: usize, count: u32 },
    Rekey { at: usize },
}

/// A table as it is lent first, and the calls on it.
#[derive(Clone)]
pub struct Walk {
    pub links: Vec<Link>,
    pub calls: Vec<Call>,
}

/// A link of the model.
struct Known {
    /// The numbers that it was lent with, until a call alters it.
    lent: Option<Link>,
    highest: u64,
    accepted: BTreeSet<u64>,
}

impl Known {
    /// Bit i stands for COUNT highest - i, if there is such a COUNT.
    fn of(link: Link) -> Self {
        let highest = u64::from(link.highest);
        let set = (0..=OLDEST).filter(|i| link.accepted >> i & 1 == 1);
        let accepted = set.filter_map(|i| highest.checked_sub(i)).collect();
        Self { lent: Some(link), highest, accepted }
    }

    fn accept(&mut self, count: u32) -> u32 {
        let count = u64::from(count);
        if count + OLDEST < self.highest {
            return BAD_AGE;
        }
        if !self.accepted.insert(count) {
            return BAD_REUSE;
        }
        self.highest = self.highest.max(count);
        self.lent = None;
        0
    }

    /// The link as the table should hold it.
    fn link(&self) -> Link {
        let bit =
            |i: &u64| self.highest.checked_sub(*i).is_some_and(|n| self.accepted.contains(&n));
        let accepted = (0..=OLDEST).filter(bit).map(|i| 1 << i).sum();
        let highest = u32::try_from(self.highest).expect("a COUNT has 32 bits");
        self.lent.unwrap_or(Link { highest, accepted })
    }
}

/// What the model answers.
fn answer(table: &mut [Known], call: Call) -> u32 {
    let (Call::Accept { at, .. } | Call::Rekey { at }) = call;
    let Some(known) = table.get_mut(at) else {
        return BAD_LINK;
    };
    match call {
        Call::Accept { count, .. } => known.accept(count),
        Call::Rekey { .. } => {
            *known = Known::of(Link::default());
            0
        }
    }
}

/// What the port answers through C, and through the package.
fn asked(lent: &mut [Link], guard: &mut Guard, call: Call) -> (u32, u32) {
    let (number, result) = match call {
        Call::Accept { at, count } => {
            (capi::zuc_guard_accept(lent, at, count), guard.accept(at, count))
        }
        Call::Rekey { at } => (capi::zuc_guard_rekey(lent, at), guard.rekey(at)),
    };
    (number, result.err().map_or(0, Refusal::number))
}

fn same<T: PartialEq + fmt::Debug>(call: usize, what: &str, expected: T, port: T) -> Verdict {
    if expected == port {
        return Ok(());
    }
    Err(format!("call {call}, {what}: expected {expected:?}, the port has {port:?}"))
}

impl Trial for Walk {
    fn verdict(&self) -> Verdict {
        let mut table: Vec<Known> = self.links.iter().map(|&link| Known::of(link)).collect();
        let mut around = vec![DIRT; self.links.len() + 2];
        let inside = 1..=self.links.len();
        around[inside.clone()].copy_from_slice(&self.links);
        let mut links = self.links.clone();
        let mut guard = Guard::new(&mut links);
        for (i, &call) in self.calls.iter().enumerate() {
            let expected = answer(&mut table, call);
            let (number, refusal) = asked(&mut around[inside.clone()], &mut guard, call);
            same(i, "the number of the C function", expected, number)?;
            same(i, "the refusal of the package", expected, refusal)?;
            let wanted: Vec<Link> = table.iter().map(Known::link).collect();
            same(i, "the table lent to C", wanted.as_slice(), &around[inside.clone()])?;
            same(i, "the package's table", wanted.as_slice(), guard.links())?;
            same(i, "around the table", [DIRT; 2], [around[0], around[around.len() - 1]])?;
        }
        Ok(())
    }
}

impl Shrinks for Walk {
    fn size(&self) -> (usize, usize, usize, u64) {
        let numbers = self.calls.iter().map(|call| match *call {
            Call::Accept { at, count } => (at, u64::from(count)),
            Call::Rekey { at } => (at, 0),
        });
        let lent: u64 =
            self.links.iter().map(|l| u64::from(l.highest) + l.accepted.count_ones() as u64).sum();
        let (places, counts): (Vec<usize>, Vec<u64>) = numbers.unzip();
        let places = places.iter().fold(0usize, |sum, at| sum.saturating_add(*at));
        (self.calls.len(), self.links.len(), places, counts.iter().sum::<u64>() + lent)
    }

    fn steps(&self) -> Vec<Self> {
        let mut steps = Vec::new();
        let mut push = |change: &dyn Fn(&mut Self)| {
            let mut next = self.clone();
            change(&mut next);
            steps.push(next);
        };
        for part in [2, 4, 16, usize::MAX] {
            let n = self.calls.len();
            let gone = (n / part).max(1).min(n);
            push(&|next| next.calls.truncate(n - gone));
            push(&|next| _ = next.calls.drain(..gone));
        }
        for i in 0..self.calls.len().min(200) {
            push(&|next| _ = next.calls.remove(i));
        }
        push(&|next| _ = next.links.pop());
        for i in 0..self.links.len().min(20) {
            push(&|next| next.links[i] = Link::default());
        }
        for by in [u32::MAX, 1 << 20, 1 << 10, 64, 1] {
            push(&|next| lower(next, by));
        }
        for i in 0..self.calls.len().min(20) {
            push(&|next| lower_one(&mut next.calls[i], 1));
            push(&|next| lower_one(&mut next.calls[i], 64));
        }
        steps
    }
}

/// Lowers every COUNT, so that the distances between them stay.
fn lower(walk: &mut Walk, by: u32) {
    for call in &mut walk.calls {
        lower_one(call, by);
    }
    for link in &mut walk.links {
        link.highest = link.highest.saturating_sub(by);
    }
}

fn lower_one(call: &mut Call, by: u32) {
    if let Call::Accept { count, .. } = call {
        *count = count.saturating_sub(by);
    }
}

impl fmt::Display for Walk {
    fn fmt(&self, f: &mut fmt::Formatter<'_>) -> fmt::Result {
        let fresh = self.links.iter().all(|&link| link == Link::default());
        match (fresh, self.links.len()) {
            (true, n) => write!(f, "a table of {n}, fresh:")?,
            (false, _) => write!(f, "links {:?}:", self.links)?,
        }
        for call in &self.calls {
            match call {
                Call::Accept { at, count } => write!(f, " accept({at}, {count})")?,
                Call::Rekey { at } => write!(f, " rekey({at})")?,
            }
        }
        Ok(())
    }
}
