//! Words in order, and what paths alone say of a word: slow, and without tables.

use crate::machine::Machine;
use crate::model::{bit, in_mask, Verdict};
use std::collections::BTreeSet;

/// All words of a length from least to most, shorter first and then the lower event first.
pub fn words(k: usize, least: usize, most: usize) -> Vec<Vec<u8>> {
    let mut level: Vec<Vec<u8>> = vec![Vec::new()];
    let mut all = Vec::new();
    for length in 0..=most {
        let mut next = Vec::new();
        for word in &level {
            next.extend((0..k).map(|event| [&word[..], &[event as u8]].concat()));
        }
        if length >= least {
            all.append(&mut level);
        }
        level = next;
    }
    all
}

/// Where paths along the word end, and whether some state after the first was home.
fn ends(machine: &Machine, p: usize, word: &[u8]) -> BTreeSet<(usize, bool)> {
    let mut ends = BTreeSet::from([(p, false)]);
    for &event in word {
        let mut later = BTreeSet::new();
        for (r, marked) in ends {
            let arrows = &machine.arrows[r][event as usize];
            later.extend(arrows.iter().map(|&q| (q, marked || machine.home[q])));
        }
        ends = later;
    }
    ends
}

pub fn set(machine: &Machine, word: &[u8]) -> u8 {
    let starts = (0..machine.states).filter(|&p| machine.start[p]);
    let reached = starts.flat_map(|p| ends(machine, p, word));
    reached.fold(0, |mask, (q, _)| mask | 1 << q)
}

/// The arrows and the marks of the word's profile.
pub fn profile(machine: &Machine, word: &[u8]) -> (u64, u64) {
    let (mut arrows, mut marks) = (0, 0);
    for p in 0..machine.states {
        for (q, marked) in ends(machine, p, word) {
            arrows |= bit(p, q);
            marks |= if marked { bit(p, q) } else { 0 };
        }
    }
    (arrows, marks)
}

/// Acceptance straight from its meaning; more rounds than 2n repeat a state and its mark.
pub fn accepts(machine: &Machine, u: &[u8], v: &[u8]) -> bool {
    let rounds = 2 * machine.states;
    let reached = (0..=rounds).fold(0, |all, i| all | set(machine, &[u, &v.repeat(i)].concat()));
    let returns =
        |r: usize| (1..=rounds).any(|j| ends(machine, r, &v.repeat(j)).contains(&(r, true)));
    (0..machine.states).any(|r| in_mask(reached, r) && returns(r))
}

/// The verdict from the least words alone, in the order in which they are given.
pub fn verdict(machine: &Machine, beginnings: &[Vec<u8>], rounds: &[Vec<u8>]) -> Verdict {
    for u in beginnings {
        for v in rounds {
            if rejecting(machine, u, v) {
                return Verdict::Uncovered((u.clone(), v.clone()));
            }
        }
    }
    Verdict::Covered
}

/// Another v must change neither the set nor the profile, and no state of the set may win.
fn rejecting(machine: &Machine, u: &[u8], v: &[u8]) -> bool {
    let reached = set(machine, u);
    let round = profile(machine, v);
    let wins = |r: usize| in_mask(reached, r) && round.1 & bit(r, r) != 0;
    set(machine, &[u, v].concat()) == reached
        && profile(machine, &v.repeat(2)) == round
        && !(0..machine.states).any(wins)
}
