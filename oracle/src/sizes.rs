//! The sizes of a state.

use crate::parse;

/// The number of conditions of every state.
pub const CONDITIONS: usize = 256;

#[derive(Clone, Copy)]
pub struct Sizes {
    pub processes: usize,
    pub rendez: usize,
    pub locks: usize,
    pub timers: usize,
    pub cells: usize,
    pub hz: u64,
}

impl Sizes {
    pub const DEFAULT: Sizes =
        Sizes { processes: 16, rendez: 16, locks: 16, timers: 16, cells: 256, hz: 1_000_000 };

    /// Sizes written as P,R,Q,K,C,HZ, or None where they are out of range.
    pub fn read(text: &str) -> Option<Sizes> {
        let numbers: Vec<u64> = text.split(',').map(parse::digits).collect::<Option<_>>()?;
        let &[p, r, q, k, c, hz] = numbers.as_slice() else {
            return None;
        };
        let few = |n: u64| (1..=4096).contains(&n);
        let fits = [p, r, q, k].into_iter().all(few)
            && (1..=65_000).contains(&c)
            && (1..=4_294_967_295).contains(&hz);
        fits.then_some(Sizes {
            processes: p as usize,
            rendez: r as usize,
            locks: q as usize,
            timers: k as usize,
            cells: c as usize,
            hz,
        })
    }
}
