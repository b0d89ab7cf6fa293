//! Random models and courses from a fixed seed, so that a failure can be repeated.

use crate::course::Course;
use crate::model::{Model, MOST_EVENTS, MOST_STATES};

pub struct Random {
    seed: u64,
}

impl Random {
    pub fn new(seed: u64) -> Random {
        Random { seed }
    }

    /// The splitmix64 generator.
    fn next(&mut self) -> u64 {
        self.seed = self.seed.wrapping_add(0x9E37_79B9_7F4A_7C15);
        let mixed = (self.seed ^ self.seed >> 30).wrapping_mul(0xBF58_476D_1CE4_E5B9);
        let mixed = (mixed ^ mixed >> 27).wrapping_mul(0x94D0_49BB_1331_11EB);
        mixed ^ mixed >> 31
    }

    pub fn below(&mut self, limit: usize) -> usize {
        (self.next() % limit as u64) as usize
    }

    fn one_to(&mut self, most: usize) -> usize {
        1 + self.below(most)
    }

    fn mask(&mut self, n: usize, eighths: usize) -> u8 {
        let mut mask = 0;
        for q in 0..n {
            mask |= u8::from(self.below(8) < eighths) << q;
        }
        mask
    }

    fn non_empty_mask(&mut self, n: usize, eighths: usize) -> u8 {
        let mask = self.mask(n, eighths);
        if mask == 0 {
            return 1 << self.below(n);
        }
        mask
    }

    fn arrows(&mut self, n: usize, eighths: usize, total: bool) -> u64 {
        let mut arrows = 0;
        for p in 0..n {
            let targets = if total {
                self.non_empty_mask(n, eighths)
            } else {
                self.mask(n, eighths)
            };
            arrows |= u64::from(targets) << (8 * p);
        }
        arrows
    }

    /// Mostly small, because small models meet every case and cost little.
    pub fn model(&mut self) -> Model {
        if self.below(32) == 0 {
            self.model_up_to(MOST_STATES, MOST_EVENTS)
        } else {
            self.model_up_to(4, 3)
        }
    }

    /// Mostly with a start state and arrows everywhere, or the empty set would decide too often.
    pub fn model_up_to(&mut self, most_states: usize, most_events: usize) -> Model {
        let (n, k) = (self.one_to(most_states), self.one_to(most_events));
        self.model_of(n, k)
    }

    pub fn model_of(&mut self, n: usize, k: usize) -> Model {
        let (start_density, home_density) = (self.below(8), self.below(9));
        let (arrow_density, total) = (self.below(9), self.below(4) > 0);
        let has_start = self.below(16) > 0;
        let some_start = self.non_empty_mask(n, start_density);
        let start = if has_start { some_start } else { 0 };
        let home = self.mask(n, home_density);
        let mut arrows = Vec::new();
        for _ in 0..k {
            arrows.push(self.arrows(n, arrow_density, total));
        }
        Model {
            n,
            k,
            start,
            home,
            arrows,
        }
    }

    /// u has up to `most` events and v from one to `most`.
    pub fn course(&mut self, k: usize, most: usize) -> Course {
        let (before, round) = (self.below(most + 1), self.one_to(most));
        (self.word(k, before), self.word(k, round))
    }

    pub fn word(&mut self, k: usize, length: usize) -> Vec<u8> {
        (0..length).map(|_| self.below(k) as u8).collect()
    }
}
