//! A small random source, the same for the same seed everywhere.

use crate::plan::{Range, Set};

/// A 64-bit counter whose steps are mixed (the splitmix64 recipe).
pub struct Random {
    state: u64,
}

/// What is drawn from a source aside.
#[derive(Clone, Copy)]
pub enum Aside {
    Bands,
    Kinds,
}

impl Random {
    /// The source for file number `n` of the stream with this seed.
    pub fn new(seed: u64, n: u64) -> Random {
        let of_seed = Random { state: seed }.bits();
        let of_both = Random {
            state: of_seed ^ n.rotate_left(32),
        }
        .bits();
        Random { state: of_both }
    }

    /// Another source beside this one, which stays as it is: what is drawn there changes nothing here.
    pub fn aside(&self, of: Aside) -> Random {
        let apart = match of {
            Aside::Bands => 0x6C62_272E_07BB_0142,
            Aside::Kinds => 0x62B8_2175_6295_C58D,
        };
        Random {
            state: self.state ^ apart,
        }
    }

    /// The next 64 random bits.
    pub fn bits(&mut self) -> u64 {
        self.state = self.state.wrapping_add(0x9E37_79B9_7F4A_7C15);
        let mut mixed = self.state;
        mixed = (mixed ^ (mixed >> 30)).wrapping_mul(0xBF58_476D_1CE4_E5B9);
        mixed = (mixed ^ (mixed >> 27)).wrapping_mul(0x94D0_49BB_1331_11EB);
        mixed ^ (mixed >> 31)
    }

    /// A number from low to high, both ends in it.
    pub fn within(&mut self, low: i64, high: i64) -> i64 {
        assert!(low <= high, "{low} is above {high}");
        let width = (high - low) as u64 + 1;
        low + (self.bits() % width) as i64
    }

    /// A value of the range.
    pub fn value(&mut self, range: Range) -> i64 {
        self.within(range.low, range.high)
    }

    /// A range whose low is within from..to and whose high is up to `widest` above it.
    pub fn range(&mut self, from: i64, to: i64, widest: i64) -> Range {
        let low = self.within(from, to);
        Range::new(low, low + self.within(0, widest))
    }

    /// A non-empty set of places in a list of that length, each set as likely.
    pub fn set(&mut self, length: usize) -> Set {
        Set(self.within(1, Set::all(length).0 as i64) as u64)
    }

    /// A number of things, from least to most.
    pub fn count(&mut self, least: usize, most: usize) -> usize {
        self.within(least as i64, most as i64) as usize
    }

    /// A place in a list of that length.
    pub fn place(&mut self, length: usize) -> usize {
        (self.bits() % length as u64) as usize
    }

    /// True once in `times` on average.
    pub fn one_in(&mut self, times: u64) -> bool {
        self.bits() % times < 1
    }

    pub fn pick<T: Copy>(&mut self, list: &[T]) -> T {
        list[self.place(list.len())]
    }
}
