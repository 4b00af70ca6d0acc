//! Numbers that look random and are the same at every run.

/// The generator SplitMix64.
#[derive(Clone)]
pub struct Random(u64);

/// A number from `x` in which every bit depends on every bit.
pub fn mix(x: u64) -> u64 {
    let x = (x ^ (x >> 30)).wrapping_mul(0xbf58_476d_1ce4_e5b9);
    let x = (x ^ (x >> 27)).wrapping_mul(0x94d0_49bb_1331_11eb);
    x ^ (x >> 31)
}

impl Random {
    pub fn new(seed: u64) -> Random {
        Random(mix(seed))
    }

    pub fn bits(&mut self) -> u64 {
        self.0 = self.0.wrapping_add(0x9e37_79b9_7f4a_7c15);
        mix(self.0)
    }

    /// A number below `n`, which is not 0.
    pub fn below(&mut self, n: usize) -> usize {
        (self.bits() % n as u64) as usize
    }

    /// A number from 0 to `n`.
    pub fn up_to(&mut self, n: u64) -> u64 {
        if n == u64::MAX { self.bits() } else { self.bits() % (n + 1) }
    }

    /// A number from `a` to `b`.
    pub fn between(&mut self, a: usize, b: usize) -> usize {
        a + self.below(b - a + 1)
    }

    /// True `n` times in a hundred.
    pub fn percent(&mut self, n: usize) -> bool {
        self.below(100) < n
    }

    /// One of these.
    pub fn of<T: Copy>(&mut self, these: &[T]) -> T {
        these[self.below(these.len())]
    }

    /// One of these, if there are any.
    pub fn any<T: Copy>(&mut self, these: &[T]) -> Option<T> {
        if these.is_empty() { None } else { Some(self.of(these)) }
    }

    /// Two that stand at different places of these, if there are two.
    pub fn two<T: Copy>(&mut self, these: &[T]) -> Option<(T, T)> {
        if these.len() < 2 {
            return None;
        }
        let i = self.below(these.len());
        let j = (i + 1 + self.below(these.len() - 1)) % these.len();
        Some((these[i], these[j]))
    }
}
