//! The model as it is given, what is refused in it, and the models worked by hand.

use crate::course::Course;
use crate::machine::Machine;
use std::fmt;

pub const MOST_STATES: usize = 8;
pub const MOST_EVENTS: usize = 16;

#[derive(Clone)]
pub struct Model {
    pub n: usize,
    pub k: usize,
    pub start: u8,
    pub home: u8,
    /// One number an event: bit 8*p+q is the arrow from p to q.
    pub arrows: Vec<u64>,
}

#[derive(Clone, Debug, PartialEq)]
pub enum Verdict {
    Covered,
    Uncovered(Course),
}

pub fn bit(p: usize, q: usize) -> u64 {
    1 << (8 * p + q)
}

pub fn in_mask(mask: u8, state: usize) -> bool {
    mask >> state & 1 == 1
}

impl Model {
    /// The number of the first refusal, or 0.
    pub fn refusal(&self) -> u8 {
        if self.n < 1 || self.n > MOST_STATES || self.k < 1 || self.k > MOST_EVENTS {
            1
        } else if self.arrows.len() < self.k {
            2
        } else if self.names_a_missing_state() {
            3
        } else {
            0
        }
    }

    fn names_a_missing_state(&self) -> bool {
        let missing = |state: usize| state >= self.n;
        let in_masks = (0..8).any(|q| missing(q) && in_mask(self.start | self.home, q));
        let in_arrows = (0..8).any(|p| {
            (0..8).any(|q| {
                (missing(p) || missing(q)) && (0..self.k).any(|event| self.leads(event, p, q))
            })
        });
        in_masks || in_arrows
    }

    pub fn leads(&self, event: usize, p: usize, q: usize) -> bool {
        self.arrows[event] & bit(p, q) != 0
    }

    pub fn machine(&self) -> Machine {
        let mut machine = Machine::new(self.n, self.k);
        for p in 0..self.n {
            machine.start[p] = in_mask(self.start, p);
            machine.home[p] = in_mask(self.home, p);
            for event in 0..self.k {
                for q in (0..self.n).filter(|&q| self.leads(event, p, q)) {
                    machine.add_arrow(p, event, q);
                }
            }
        }
        machine
    }
}

pub fn show_arrows(arrows: u64) -> String {
    let places = (0..64).filter(|place| arrows >> place & 1 == 1);
    places
        .map(|place| format!(" {}>{}", place / 8, place % 8))
        .collect()
}

fn show_states(mask: u8) -> String {
    let states = (0..8).filter(|&state| in_mask(mask, state));
    states.map(|state| format!(" {}", state)).collect()
}

/// One line from which a failing model can be drawn by hand.
impl fmt::Display for Model {
    fn fmt(&self, out: &mut fmt::Formatter) -> fmt::Result {
        let (start, home) = (show_states(self.start), show_states(self.home));
        write!(out, "model n {} k {} ", self.n, self.k)?;
        write!(out, "start{} home{}", start, home)?;
        for (event, arrows) in self.arrows.iter().enumerate() {
            write!(out, ", event {}:{}", event, show_arrows(*arrows))?;
        }
        Ok(())
    }
}

pub struct HandWorked {
    pub name: &'static str,
    pub model: Model,
    pub sets: usize,
    pub profiles: usize,
    pub verdict: Verdict,
}

pub fn hand_worked() -> Vec<HandWorked> {
    let one_loop: &[&[(usize, usize)]] = &[&[(0, 0)]];
    let c = from_lists(2, &[0], &[1], &[&[(0, 1), (1, 1)], &[(0, 0), (1, 0)]]);
    let h = from_lists(2, &[0], &[1], &[&[(0, 0)], &[(0, 0), (0, 1), (1, 1)]]);
    vec![
        covered("A", from_lists(1, &[0], &[0], one_loop), 1, 1),
        uncovered("B", from_lists(1, &[0], &[], one_loop), 1, 1, &[], &[0]),
        uncovered("C", c, 2, 3, &[], &[1]),
        uncovered("D", from_lists(1, &[0], &[0], &[&[]]), 2, 1, &[0], &[0]),
        covered("E", from_lists(2, &[0], &[1], &[&[(0, 1), (1, 0)]]), 2, 3),
        covered("F", from_lists(2, &[0], &[1], &[&[(0, 1), (1, 1)]]), 2, 1),
        uncovered("G", from_lists(1, &[], &[0], one_loop), 1, 1, &[], &[0]),
        uncovered("H", h, 2, 3, &[], &[0]),
    ]
}

/// Models that see errors which A to H let through: two states that swap, two that lead to both, C without home, and a way there and back.
pub fn own_models() -> Vec<Model> {
    let swap: &[(usize, usize)] = &[(0, 1), (1, 0)];
    let both: &[(usize, usize)] = &[(0, 0), (0, 1), (1, 0), (1, 1)];
    vec![
        from_lists(2, &[0, 1], &[1], &[swap]),
        from_lists(2, &[0, 1], &[1], &[both]),
        from_lists(2, &[0], &[], &[&[(0, 1), (1, 1)], &[(0, 0), (1, 0)]]),
        from_lists(2, &[0], &[], &[&[(0, 1)], &[(1, 0)]]),
    ]
}

pub fn named(name: &str) -> Model {
    let found = hand_worked().into_iter().find(|case| case.name == name);
    found.expect("a hand-worked model").model
}

fn from_lists(n: usize, start: &[usize], home: &[usize], events: &[&[(usize, usize)]]) -> Model {
    let mask = |states: &[usize]| states.iter().fold(0, |mask, state| mask | 1 << state);
    let arrows = |list: &&[(usize, usize)]| list.iter().fold(0, |all, &(p, q)| all | bit(p, q));
    Model {
        n,
        k: events.len(),
        start: mask(start),
        home: mask(home),
        arrows: events.iter().map(arrows).collect(),
    }
}

fn covered(name: &'static str, model: Model, sets: usize, profiles: usize) -> HandWorked {
    HandWorked {
        name,
        model,
        sets,
        profiles,
        verdict: Verdict::Covered,
    }
}

fn uncovered(
    name: &'static str,
    model: Model,
    sets: usize,
    profiles: usize,
    u: &[u8],
    v: &[u8],
) -> HandWorked {
    HandWorked {
        name,
        model,
        sets,
        profiles,
        verdict: Verdict::Uncovered((u.to_vec(), v.to_vec())),
    }
}
