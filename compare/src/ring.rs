//! Cells that stay put (request 2026-08) and a count of the words drawn (request 2026-09),
//! written from the requests: sixteen places, and a start index from which they are read. A
//! step writes one place, and raises the index and the count. What the step computes is the
//! crate's.

use window::State as Meaning;
use yegetmur::capi::{State, STATE_WORDS};

use crate::original;
use crate::rules::{well_formed, LIMIT};

/// A generator as the port keeps it.
#[derive(Clone, Copy, PartialEq, Debug)]
pub struct Ring {
    places: [u32; 16],
    r1: u32,
    r2: u32,
    start: usize,
    count: usize,
}

impl Ring {
    /// A state that has drawn nothing, in one of its turns: cell j goes to place
    /// (start + j) mod 16.
    pub fn turned(meaning: &Meaning, start: usize) -> Self {
        let mut places = [0; 16];
        for (j, &cell) in meaning[..16].iter().enumerate() {
            places[(start + j) % 16] = cell;
        }
        Self { places, r1: meaning[16], r2: meaning[17], start, count: 0 }
    }

    /// The same state, set to have drawn so many words.
    pub fn counted(self, count: usize) -> Self {
        Self { count, ..self }
    }

    /// What stands in an array as its sixteen places, R1, R2, its index and its count,
    /// unless refusal 4 covers it.
    pub fn held(numbers: &[u32; 18], start: u64, count: u64) -> Option<Self> {
        let &[ref places @ .., r1, r2] = numbers;
        let formed = start <= 15 && count <= LIMIT as u64 && well_formed(places);
        let (start, count) = (start as usize, count as usize);
        formed.then_some(Self { places: *places, r1, r2, start, count })
    }

    pub fn of_array(array: &State) -> Option<Self> {
        let &[ref numbers @ .., start, count] = array;
        Self::held(numbers, start.into(), count.into())
    }

    /// The cells read from the start index, R1, R2.
    pub fn meaning(&self) -> Meaning {
        let mut meaning = [self.r1; 18];
        for (j, cell) in meaning[..16].iter_mut().enumerate() {
            *cell = self.places[(self.start + j) % 16];
        }
        meaning[17] = self.r2;
        meaning
    }

    /// One step: the new cell takes the place of the oldest.
    pub fn draw(&mut self) -> u32 {
        let mut next = self.meaning();
        let word = original::draw(&mut next);
        self.places[self.start] = next[15];
        (self.r1, self.r2) = (next[16], next[17]);
        self.start = if self.start == 15 { 0 } else { self.start + 1 };
        self.count += 1;
        word
    }

    pub fn words(&mut self, n: usize) -> Vec<u32> {
        (0..n).map(|_| self.draw()).collect()
    }

    /// The same after so many words.
    pub fn after(&self, words: usize) -> Self {
        let mut ring = *self;
        (0..words).for_each(|_| _ = ring.draw());
        ring
    }

    /// The sixteen places as they lie, R1, R2.
    pub fn numbers(&self) -> [u32; 18] {
        let mut numbers = [self.r1; 18];
        numbers[..16].copy_from_slice(&self.places);
        numbers[17] = self.r2;
        numbers
    }

    pub fn start(&self) -> usize {
        self.start
    }

    /// How many words are drawn.
    pub fn count(&self) -> usize {
        self.count
    }

    /// The array that is lent to C.
    pub fn array(&self) -> State {
        let mut array = [self.start as u32; STATE_WORDS];
        array[..18].copy_from_slice(&self.numbers());
        array[19] = self.count as u32;
        array
    }
}

#[cfg(test)]
mod tests {
    use super::*;

    /// The crate's state moves its cells; read from the index, these are the same.
    #[test]
    fn a_turned_state_is_the_crates() {
        let mut moved: Meaning = std::array::from_fn(|i| 7 + i as u32 * 0x0123_4567);
        for start in 0..16 {
            let mut ring = Ring::turned(&moved, start);
            for n in 0..40 {
                assert_eq!((ring.meaning(), ring.start()), (moved, (start + n) % 16));
                assert_eq!(ring.count(), n);
                assert_eq!(Ring::of_array(&ring.array()), Some(ring));
                let before = ring.places;
                assert_eq!(ring.draw(), original::draw(&mut moved));
                let written: Vec<usize> =
                    (0..16).filter(|&i| ring.places[i] != before[i]).collect();
                assert_eq!(written, [(start + n) % 16]);
            }
        }
    }

    #[test]
    fn an_index_above_15_is_malformed() {
        let numbers = [1; 18];
        assert!((0..16).all(|start| Ring::held(&numbers, start, 0).is_some()));
        for start in [16, 17, 1 << 31, 1 << 32, u64::MAX] {
            assert_eq!(Ring::held(&numbers, start, 0), None);
        }
    }

    #[test]
    fn a_count_above_the_limit_is_malformed() {
        let numbers = [1; 18];
        assert!([0, 134_217_729, 134_217_730]
            .map(|n| Ring::held(&numbers, 0, n))
            .iter()
            .all(Option::is_some));
        for count in [134_217_731, 1 << 31, 1 << 32, u64::MAX] {
            assert_eq!(Ring::held(&numbers, 0, count), None);
        }
    }
}
