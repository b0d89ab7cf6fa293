//! Closing with packed numbers and a straight look-up, in lent memory: what the library's time is held against.

use crate::model::Model;
use crate::profile::Profile;
use crate::tables::{MOST_PROFILES, MOST_SETS, NO_EVENT, NO_PREDECESSOR};

#[derive(Clone, Copy, PartialEq)]
struct Packed {
    arrows: u64,
    marks: u64,
}

fn row(x: u64, p: usize) -> u64 {
    x >> (8 * p) & 255
}

impl Packed {
    fn of_event(model: &Model, event: usize) -> Packed {
        let profile = Profile::of_event(model, event);
        Packed {
            arrows: profile.arrows(),
            marks: profile.marks(),
        }
    }

    fn then(self, later: Packed) -> Packed {
        let (mut arrows, mut marks) = (0, 0);
        for p in 0..8 {
            for r in (0..8).filter(|r| row(self.arrows, p) >> r & 1 == 1) {
                let leads = row(later.arrows, r);
                let marked = row(self.marks, p) >> r & 1 == 1;
                arrows |= leads << (8 * p);
                marks |= (if marked { leads } else { row(later.marks, r) }) << (8 * p);
            }
        }
        Packed { arrows, marks }
    }

    fn lead(self, set: u64) -> u64 {
        let reached = (0..8).filter(|p| set >> p & 1 == 1);
        reached.fold(0, |all, p| all | row(self.arrows, p))
    }
}

/// The memory that a caller lends, whole: both tables at their limits.
pub struct Lent {
    masks: Vec<u8>,
    set_from: Vec<u16>,
    set_event: Vec<u8>,
    arrows: Vec<u64>,
    marks: Vec<u64>,
    profile_from: Vec<u16>,
    profile_event: Vec<u8>,
}

impl Lent {
    pub fn cleared() -> Lent {
        Lent {
            masks: vec![0; MOST_SETS],
            set_from: vec![0; MOST_SETS],
            set_event: vec![0; MOST_SETS],
            arrows: vec![0; MOST_PROFILES],
            marks: vec![0; MOST_PROFILES],
            profile_from: vec![0; MOST_PROFILES],
            profile_event: vec![0; MOST_PROFILES],
        }
    }

    /// The entries that stand there, each as its numbers.
    pub fn rows(&self, sets: usize, profiles: usize) -> Vec<Vec<u64>> {
        let set = |i: usize| {
            let (from, event) = (self.set_from[i].into(), self.set_event[i].into());
            vec![self.masks[i].into(), from, event]
        };
        let profile = |i: usize| {
            let (from, event) = (self.profile_from[i].into(), self.profile_event[i].into());
            vec![self.arrows[i], self.marks[i], from, event]
        };
        (0..sets)
            .map(set)
            .chain((0..profiles).map(profile))
            .collect()
    }

    /// How many sets and profiles there are, and whether a table was cut.
    pub fn close(&mut self, model: &Model) -> (usize, usize, bool) {
        let events: Vec<Packed> = (0..model.k)
            .map(|event| Packed::of_event(model, event))
            .collect();
        self.masks[0] = model.start;
        self.set_from[0] = NO_PREDECESSOR as u16;
        self.set_event[0] = NO_EVENT;
        let (mut sets, mut number) = (1, 0);
        while number < sets {
            let set = self.masks[number];
            for (event, profile) in events.iter().enumerate() {
                let next = profile.lead(set.into()) as u8;
                if self.masks[..sets].contains(&next) {
                    continue;
                }
                self.masks[sets] = next;
                self.set_from[sets] = number as u16;
                self.set_event[sets] = event as u8;
                sets += 1;
            }
            number += 1;
        }
        let (mut profiles, mut number) = (0, 0);
        for (event, profile) in events.iter().enumerate() {
            if !self.enter(&mut profiles, *profile, NO_PREDECESSOR, event) {
                return (sets, profiles, true);
            }
        }
        while number < profiles {
            let before = Packed {
                arrows: self.arrows[number],
                marks: self.marks[number],
            };
            for (event, profile) in events.iter().enumerate() {
                if !self.enter(&mut profiles, before.then(*profile), number, event) {
                    return (sets, profiles, true);
                }
            }
            number += 1;
        }
        (sets, profiles, false)
    }

    /// Whether there was room.
    fn enter(&mut self, count: &mut usize, profile: Packed, from: usize, event: usize) -> bool {
        let stored = self.arrows[..*count].iter().zip(&self.marks[..*count]);
        for (arrows, marks) in stored {
            if *arrows == profile.arrows && *marks == profile.marks {
                return true;
            }
        }
        if *count == MOST_PROFILES {
            return false;
        }
        self.arrows[*count] = profile.arrows;
        self.marks[*count] = profile.marks;
        self.profile_from[*count] = from as u16;
        self.profile_event[*count] = event as u8;
        *count += 1;
        true
    }
}
