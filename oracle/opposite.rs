//! The opposite machine: its size by counting alone, and apart from that the machine itself.

use crate::machine::Machine;
use crate::profile::Profile;
use crate::tables::Tables;
use std::collections::HashMap;

pub const LIMIT: usize = 65_535;

#[derive(Clone, Copy, Debug, PartialEq)]
pub struct Size {
    pub states: usize,
    pub arrows: usize,
}

impl Size {
    pub fn is_within_limits(&self) -> bool {
        self.states <= LIMIT && self.arrows <= LIMIT
    }
}

/// Counted without building, so that a size above the limits costs no memory.
pub fn counted(tables: &Tables) -> Size {
    let (s, m) = (tables.sets.entries.len(), tables.profiles.entries.len());
    let k = tables.of_event.len();
    let pairs = pairs_with_states(tables);
    let gates = gate_profiles(&pairs);
    let in_blocks = gates.len() * (m + 1);
    let reached = times_reached(tables);
    let profile = |number: &usize| &tables.profiles.entries[*number].value;
    let second_arrows: usize = gates
        .iter()
        .map(|t| reached.get(profile(t)).copied().unwrap_or(0))
        .sum();
    Size {
        states: s + in_blocks,
        arrows: s * k + pairs.len() * k + in_blocks * k + second_arrows,
    }
}

/// How often a block's arrows arrive at each profile, the same in every block.
fn times_reached(tables: &Tables) -> HashMap<Profile, usize> {
    let mut times = HashMap::new();
    for single in &tables.of_event {
        *times.entry(single.clone()).or_insert(0) += 1;
        for entry in &tables.profiles.entries {
            *times.entry(entry.value.then(single)).or_insert(0) += 1;
        }
    }
    times
}

fn pairs_with_states(tables: &Tables) -> Vec<(usize, usize)> {
    tables
        .rejecting_pairs()
        .filter(|&(set, _)| tables.sets.entries[set].value != 0)
        .collect()
}

/// The profiles that get a block, in order and each once.
fn gate_profiles(pairs: &[(usize, usize)]) -> Vec<usize> {
    let mut profiles: Vec<usize> = pairs.iter().map(|&(_, profile)| profile).collect();
    profiles.sort_unstable();
    profiles.dedup();
    profiles
}

pub struct Opposite {
    pub accepting: Vec<bool>,
    /// From, event, to.
    pub arrows: Vec<(usize, usize, usize)>,
    events: usize,
}

impl Opposite {
    pub fn build(tables: &Tables) -> Opposite {
        let pairs = pairs_with_states(tables);
        let sets = tables.sets.entries.iter();
        let accepting = sets.map(|entry| entry.value == 0).collect();
        let mut opposite = Opposite {
            accepting,
            arrows: Vec::new(),
            events: tables.of_event.len(),
        };
        opposite.add_set_arrows(tables);
        for t in gate_profiles(&pairs) {
            let gate = opposite.accepting.len();
            opposite.add_block(tables, t);
            for &(set, _) in pairs.iter().filter(|&&(_, profile)| profile == t) {
                opposite.add_entrances(tables, set, gate);
            }
        }
        opposite.arrows.sort_unstable();
        opposite
    }

    fn add_set_arrows(&mut self, tables: &Tables) {
        for (from, entry) in tables.sets.entries.iter().enumerate() {
            for (event, single) in tables.of_event.iter().enumerate() {
                let to = tables.sets.number(&single.lead(entry.value));
                self.arrows.push((from, event, to));
            }
        }
    }

    fn add_entrances(&mut self, tables: &Tables, set: usize, gate: usize) {
        for (event, single) in tables.of_event.iter().enumerate() {
            let to = gate + 1 + tables.profiles.number(single);
            self.arrows.push((set, event, to));
        }
    }

    fn add_block(&mut self, tables: &Tables, t: usize) {
        let gate = self.accepting.len();
        self.accepting.push(true);
        for (event, single) in tables.of_event.iter().enumerate() {
            self.add_block_arrows(gate, event, gate, tables.profiles.number(single), t);
        }
        for (number, entry) in tables.profiles.entries.iter().enumerate() {
            self.accepting.push(false);
            for (event, single) in tables.of_event.iter().enumerate() {
                let reached = tables.profiles.number(&entry.value.then(single));
                self.add_block_arrows(gate + 1 + number, event, gate, reached, t);
            }
        }
    }

    fn add_block_arrows(
        &mut self,
        from: usize,
        event: usize,
        gate: usize,
        reached: usize,
        t: usize,
    ) {
        self.arrows.push((from, event, gate + 1 + reached));
        if reached == t {
            self.arrows.push((from, event, gate));
        }
    }

    pub fn size(&self) -> Size {
        Size {
            states: self.accepting.len(),
            arrows: self.arrows.len(),
        }
    }

    pub fn machine(&self) -> Machine {
        let mut machine = Machine::new(self.accepting.len(), self.events);
        machine.start[0] = true;
        machine.home = self.accepting.clone();
        for &(from, event, to) in &self.arrows {
            machine.add_arrow(from, event, to);
        }
        machine
    }
}
