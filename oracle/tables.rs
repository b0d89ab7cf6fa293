//! The tables of sets and of profiles, closed with hash maps, and the verdict from them.

use crate::model::{in_mask, Model, Verdict};
use crate::profile::Profile;
use std::collections::HashMap;
use std::hash::Hash;

pub const MOST_SETS: usize = 256;
pub const MOST_PROFILES: usize = 2_048;
pub const NO_PREDECESSOR: usize = 65_535;
pub const NO_EVENT: u8 = 255;

pub struct Entry<V> {
    pub value: V,
    pub predecessor: usize,
    pub event: u8,
}

pub struct Table<V> {
    pub entries: Vec<Entry<V>>,
    /// Whether a new value found no room.
    pub cut: bool,
    numbers: HashMap<V, usize>,
    room: usize,
}

impl<V: Clone + Eq + Hash> Table<V> {
    fn with_room(room: usize) -> Table<V> {
        Table {
            entries: Vec::new(),
            cut: false,
            numbers: HashMap::new(),
            room,
        }
    }

    fn add(&mut self, value: V, predecessor: usize, event: u8) {
        if self.numbers.contains_key(&value) {
            return;
        }
        if self.entries.len() == self.room {
            self.cut = true;
            return;
        }
        self.numbers.insert(value.clone(), self.entries.len());
        self.entries.push(Entry {
            value,
            predecessor,
            event,
        });
    }

    fn close(&mut self, k: usize, after: impl Fn(&V, usize) -> V) {
        let mut number = 0;
        while number < self.entries.len() && !self.cut {
            for event in 0..k {
                let value = after(&self.entries[number].value, event);
                self.add(value, number, event as u8);
            }
            number += 1;
        }
    }

    pub fn number(&self, value: &V) -> usize {
        self.numbers[value]
    }

    /// The least word of an entry, gathered from its last event back to its first.
    pub fn word(&self, number: usize) -> Vec<u8> {
        let mut word = Vec::new();
        let mut at = number;
        while at != NO_PREDECESSOR {
            let entry = &self.entries[at];
            if entry.event != NO_EVENT {
                word.push(entry.event);
            }
            at = entry.predecessor;
        }
        word.reverse();
        word
    }
}

pub struct Tables {
    pub sets: Table<u8>,
    pub profiles: Table<Profile>,
    /// The profile of each event alone.
    pub of_event: Vec<Profile>,
}

impl Tables {
    /// Without a room given, the limit is the room.
    pub fn close(model: &Model, set_room: Option<usize>, profile_room: Option<usize>) -> Tables {
        let of_event: Vec<Profile> = (0..model.k)
            .map(|event| Profile::of_event(model, event))
            .collect();
        let mut sets = Table::with_room(room(set_room, MOST_SETS));
        sets.add(model.start, NO_PREDECESSOR, NO_EVENT);
        sets.close(model.k, |&set, event| set_after(model, set, event));
        let mut profiles = Table::with_room(room(profile_room, MOST_PROFILES));
        // Profiles are not begun when the sets were cut.
        if !sets.cut {
            for (event, profile) in of_event.iter().enumerate() {
                profiles.add(profile.clone(), NO_PREDECESSOR, event as u8);
            }
            profiles.close(model.k, |profile, event| profile.then(&of_event[event]));
        }
        Tables {
            sets,
            profiles,
            of_event,
        }
    }

    /// The number given back for a cut table, or 0.
    pub fn refusal(&self) -> u8 {
        match (self.sets.cut, self.profiles.cut) {
            (true, _) => 4,
            (false, true) => 5,
            (false, false) => 0,
        }
    }

    /// Set number and profile number of each rejecting pair, by set and then by profile.
    pub fn rejecting_pairs(&self) -> impl Iterator<Item = (usize, usize)> + '_ {
        let pairs_of =
            move |set: usize| (0..self.profiles.entries.len()).map(move |profile| (set, profile));
        let all = (0..self.sets.entries.len()).flat_map(pairs_of);
        all.filter(move |&(set, profile)| {
            rejecting(
                self.sets.entries[set].value,
                &self.profiles.entries[profile].value,
            )
        })
    }

    /// None when a table was cut, because the missing entries could hold a rejecting pair.
    pub fn verdict(&self) -> Option<Verdict> {
        if self.refusal() != 0 {
            return None;
        }
        Some(self.verdict_from(self.rejecting_pairs().next()))
    }

    /// The verdict when this is the first rejecting pair.
    pub fn verdict_from(&self, first: Option<(usize, usize)>) -> Verdict {
        let course = first.map(|(set, profile)| (self.sets.word(set), self.profiles.word(profile)));
        course.map_or(Verdict::Covered, Verdict::Uncovered)
    }
}

fn room(given: Option<usize>, limit: usize) -> usize {
    given.unwrap_or(limit).min(limit)
}

/// Asks the model and not a profile, so that the two tables do not share a fault.
fn set_after(model: &Model, set: u8, event: usize) -> u8 {
    let reached = |q: usize| (0..model.n).any(|p| in_mask(set, p) && model.leads(event, p, q));
    (0..model.n)
        .filter(|&q| reached(q))
        .fold(0, |mask, q| mask | 1 << q)
}

fn fits(set: u8, profile: &Profile) -> bool {
    profile.lead(set) == set && profile.then(profile) == *profile
}

fn rejecting(set: u8, profile: &Profile) -> bool {
    fits(set, profile) && !(0..8).any(|r| in_mask(set, r) && profile.is_marked(r, r))
}
