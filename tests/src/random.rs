//! A small generator with a fixed seed (splitmix64).

pub struct Random {
    state: u64,
}

/// The output step of splitmix64, a bijection that mixes all bits.
pub fn mix(state: u64) -> u64 {
    let z = (state ^ (state >> 30)).wrapping_mul(0xbf58_476d_1ce4_e5b9);
    let z = (z ^ (z >> 27)).wrapping_mul(0x94d0_49bb_1331_11eb);
    z ^ (z >> 31)
}

impl Random {
    /// Prints the seed, so that a failing test shows it.
    pub fn new(seed: u64) -> Self {
        println!("seed {seed}");
        Random { state: seed }
    }

    pub fn word(&mut self) -> u64 {
        self.state = self.state.wrapping_add(0x9e37_79b9_7f4a_7c15);
        mix(self.state)
    }

    /// A number from 0 to `bound` - 1.
    pub fn below(&mut self, bound: usize) -> usize {
        assert!(bound > 0);
        ((u128::from(self.word()) * bound as u128) >> 64) as usize
    }

    /// A number from `least` to `greatest`.
    pub fn between(&mut self, least: i32, greatest: i32) -> i32 {
        let count = i64::from(greatest) - i64::from(least) + 1;
        (i64::from(least) + self.below(count as usize) as i64) as i32
    }

    pub fn pick<T: Copy>(&mut self, from: &[T]) -> T {
        from[self.below(from.len())]
    }
}
