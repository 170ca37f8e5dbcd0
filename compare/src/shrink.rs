//! The smallest input that still fails, as far as single steps lead to it.

use crate::input::Input;

/// What can be made smaller step by step.
pub trait Shrinks: Clone {
    /// By which of two is called the smaller.
    fn size(&self) -> (usize, usize, usize, u64);

    /// Those one step away, the boldest first.
    fn steps(&self) -> Vec<Self>;
}

/// Goes from smaller to smaller input for as long as one of them fails.
pub fn shrink<T: Shrinks>(mut input: T, fails: impl Fn(&T) -> bool) -> T {
    while let Some(next) =
        input.steps().into_iter().find(|next| next.size() < input.size() && fails(next))
    {
        input = next;
    }
    input
}

impl Shrinks for Input {
    fn size(&self) -> (usize, usize, usize, u64) {
        let bytes = [&self.key, &self.iv, &self.data];
        let ones = bytes.iter().flat_map(|list| list.iter()).map(|byte| byte.count_ones());
        let fields = self.count.count_ones() + u32::from(self.bearer) + u32::from(self.direction);
        (
            self.data.len() + self.words,
            self.cuts.len(),
            self.bits,
            u64::from(ones.sum::<u32>() + fields),
        )
    }

    fn steps(&self) -> Vec<Self> {
        steps(self)
    }
}

fn steps(input: &Input) -> Vec<Input> {
    let mut steps = Vec::new();
    let mut push = |change: &dyn Fn(&mut Input)| {
        let mut next = input.clone();
        change(&mut next);
        steps.push(next);
    };
    for part in [2, 4, 16, 256, usize::MAX] {
        let less = |n: usize| n - (n / part).max(1).min(n);
        push(&|next| keep_bytes(next, less(next.data.len())));
        push(&|next| next.words = less(next.words));
        push(&|next| next.bits = less(next.bits));
    }
    push(&|next| next.bits = next.bits.saturating_sub(8));
    push(&|next| next.cuts.clear());
    for cut in 0..input.cuts.len() {
        push(&|next| _ = next.cuts.remove(cut));
    }
    push(&|next| next.data.fill(0));
    push(&|next| next.key.fill(0));
    push(&|next| next.iv.fill(0));
    push(&|next| next.count = 0);
    for bit in 0..8 {
        push(&|next| next.bearer &= !(1 << bit));
        push(&|next| next.direction &= !(1 << bit));
    }
    for i in 0..input.data.len().min(64) {
        push(&|next| next.data[i] = 0);
    }
    steps
}

/// Drops bytes off the end of the data, and with them what spoke of them: a bit length
/// keeps its distance from the end, so that one past it stays past it.
fn keep_bytes(input: &mut Input, length: usize) {
    let dropped = input.data.len() - length;
    input.data.truncate(length);
    input.bits = input.bits.saturating_sub(8 * dropped);
    while input.cuts.iter().sum::<usize>() > length {
        input.cuts.pop();
    }
}

#[cfg(test)]
mod tests {
    use super::*;
    use crate::input::{Call, Mode, Start};

    #[test]
    fn the_fault_is_kept_and_the_rest_goes() {
        let mut input = Input::of(Call::Mask(Mode::Crate, Start::Zuc128));
        input.data = vec![0xff; 1000];
        input.key = vec![0xff; 16];
        input.bits = 6000;
        let fails = |next: &Input| next.bits.is_multiple_of(8) && next.bits / 8 < next.data.len();
        let small = shrink(input, fails);
        assert_eq!((small.data, small.bits), (vec![0], 0));
        assert_eq!(small.key, [0; 16]);
    }
}
