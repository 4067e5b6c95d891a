//! Chance that can be repeated: numbers that a seed settles, so that plans and generated inputs are a
//! function of their seed alone.

/// The generator SplitMix64: a counter with a fixed stride, scrambled on the way out.
#[derive(Clone, Debug)]
pub struct Random {
    counter: u64,
}

const STRIDE: u64 = 0x9e37_79b9_7f4a_7c15;

impl Random {
    /// The stream of the seed that belongs to the number: other numbers have unrelated streams.
    pub fn new(seed: u64, number: u64) -> Random {
        Random { counter: scrambled(seed.wrapping_add(STRIDE)) ^ scrambled(number) }
    }

    /// The next number.
    pub fn number(&mut self) -> u64 {
        self.counter = self.counter.wrapping_add(STRIDE);
        scrambled(self.counter)
    }

    /// A number below the limit, which is not 0.
    pub fn below(&mut self, limit: usize) -> usize {
        ((self.number() as u128 * limit as u128) >> 64) as usize
    }

    /// A number from the first to the last, both included.
    pub fn between(&mut self, first: usize, last: usize) -> usize {
        first + self.below(last - first + 1)
    }

    pub fn byte(&mut self) -> u8 {
        self.number() as u8
    }

    /// True once in so many times.
    pub fn once_in(&mut self, times: usize) -> bool {
        self.below(times) == 0
    }

    /// One of the choices, of which there is at least one.
    pub fn pick<T: Copy>(&mut self, choices: &[T]) -> T {
        choices[self.below(choices.len())]
    }

    /// Puts the items in another order.
    pub fn shuffle<T>(&mut self, items: &mut [T]) {
        for last in (1..items.len()).rev() {
            items.swap(last, self.below(last + 1));
        }
    }
}

/// A one-to-one mapping of the 64-bit numbers in which neighbours land far apart.
pub fn scrambled(number: u64) -> u64 {
    let number = (number ^ number >> 30).wrapping_mul(0xbf58_476d_1ce4_e5b9);
    let number = (number ^ number >> 27).wrapping_mul(0x94d0_49bb_1331_11eb);
    number ^ number >> 31
}
