//! A tiny generator of pseudo-random numbers.
//!
//! The stored scripts and the measured inputs must come out the same on every machine and for ever, so the generator
//! is written out here. It is Steele, Lea and Flood's SplitMix64.

/// SplitMix64: a counter with a fixed step, and a mixing of its bits for output.
pub struct SplitMix {
    state: u64,
}

impl SplitMix {
    /// The step of the counter.
    pub const STEP: u64 = 0x9E37_79B9_7F4A_7C15;

    /// The generator whose counter stands at `state`. The counter is stepped before each output, the first included.
    pub fn new(state: u64) -> SplitMix {
        SplitMix { state }
    }

    /// The next output.
    pub fn next(&mut self) -> u64 {
        self.state = self.state.wrapping_add(SplitMix::STEP);
        let mut z = self.state;
        z = (z ^ (z >> 30)).wrapping_mul(0xBF58_476D_1CE4_E5B9);
        z = (z ^ (z >> 27)).wrapping_mul(0x94D0_49BB_1331_11EB);
        z ^ (z >> 31)
    }

    /// A number below `end`, which is not 0. The slight unevenness of the remainder does no harm here.
    pub fn below(&mut self, end: usize) -> usize {
        (self.next() % end as u64) as usize
    }

    /// A number from `least` to `most`.
    pub fn within(&mut self, least: usize, most: usize) -> usize {
        least + self.below(most - least + 1)
    }

    /// True once in `turns` on average.
    pub fn once_in(&mut self, turns: usize) -> bool {
        self.below(turns) == 0
    }

    /// One of the items, of which there is at least one.
    pub fn pick<'a, T>(&mut self, items: &'a [T]) -> &'a T {
        &items[self.below(items.len())]
    }
}
