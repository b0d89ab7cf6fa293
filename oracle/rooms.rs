//! How long the slices are that are lent: each alone too short, just right and too long, and all of different lengths.

use crate::facts::{Facts, FLAGS, TABLES, WORDS};
use crate::opposite::LIMIT;
use crate::tables::{MOST_PROFILES, MOST_SETS};
use std::ops::Range;

/// More than 16 bits can count.
pub const LONGEST: usize = 65_537;
/// As many letters as u and v can have, and a byte more.
const MOST_LETTERS: usize = 2_304;
/// The slices that belong together, so that the shortest of them is their room.
const SETS: Range<usize> = 0..3;
const PROFILES: Range<usize> = 3..TABLES;
const ARROWS: Range<usize> = TABLES..FLAGS;

/// The length of each slice that is written, and what memory is filled with.
pub struct Room {
    pub lengths: Vec<usize>,
    pub seed: u64,
}

/// What a call needs of each slice, and the length that is always enough.
struct Needs {
    groups: Vec<Range<usize>>,
    need: Vec<usize>,
    limit: Vec<usize>,
}

impl Needs {
    fn of(groups: Vec<(Range<usize>, usize, usize)>) -> Needs {
        let each = |pick: fn(&(Range<usize>, usize, usize)) -> usize| {
            let repeated = groups.iter().map(|group| vec![pick(group); group.0.len()]);
            repeated.collect::<Vec<Vec<usize>>>().concat()
        };
        Needs {
            need: each(|group| group.1),
            limit: each(|group| group.2),
            groups: groups.into_iter().map(|group| group.0).collect(),
        }
    }

    /// Some places more than are needed, not the same in each slice.
    fn enough(&self) -> Vec<usize> {
        let numbered = self.need.iter().enumerate();
        numbered.map(|(slice, need)| need + 1 + slice % 4).collect()
    }

    /// All just enough, all at the limits, past them, with no place, with one, with more than 16 bits can count.
    fn together(&self) -> Vec<Vec<usize>> {
        let all = self.need.len();
        let past = self.limit.iter().map(|limit| limit + 4).collect();
        let few = [0, 1, LONGEST].map(|length| vec![length; all]);
        let mut lengths = vec![self.enough(), self.need.clone(), self.limit.clone(), past];
        lengths.extend(few);
        lengths
    }

    /// One slice with no room, room for one, one too few, just enough, one more, and very many.
    fn alone(&self, slice: usize) -> Vec<Vec<usize>> {
        let need = self.need[slice];
        let rooms = [0, 1, need.saturating_sub(1), need, need + 1, LONGEST];
        let with = |room| {
            let mut lengths = self.enough();
            lengths[slice] = room;
            lengths
        };
        rooms.map(with).into()
    }

    /// All of different lengths, the shortest of each group just enough, or one too short in the groups that are named.
    fn different(&self, short: Range<usize>, turn: usize) -> Vec<usize> {
        let mut lengths = self.need.clone();
        for (number, group) in self.groups.iter().enumerate() {
            for slice in group.clone() {
                lengths[slice] += (slice + turn) % group.len();
                let missing = usize::from(short.contains(&number));
                lengths[slice] = lengths[slice].saturating_sub(missing);
            }
        }
        lengths
    }

    /// No group too short, each alone, and each with all behind it, so that it is seen which refusal comes first.
    fn turned(&self) -> Vec<Vec<usize>> {
        let all = self.groups.len();
        let mut short = vec![0..0];
        short.extend((0..all).map(|group| group..group + 1));
        short.extend((0..all - 1).map(|group| group..all));
        let turned = |short: &Range<usize>| {
            let turns = (0..4).map(|turn| self.different(short.clone(), turn));
            turns.collect::<Vec<Vec<usize>>>()
        };
        short.iter().flat_map(turned).collect()
    }

    fn all(&self) -> Vec<Vec<usize>> {
        let mut lengths = self.together();
        lengths.extend((0..self.need.len()).flat_map(|slice| self.alone(slice)));
        lengths.extend(self.turned());
        lengths
    }
}

/// Every eighth time over zeros.
fn seeded(lengths: Vec<Vec<usize>>) -> Vec<Room> {
    let seeds = (1..8).chain([0]).cycle();
    let rooms = lengths.into_iter().zip(seeds);
    rooms
        .map(|(lengths, seed)| Room { lengths, seed })
        .collect()
}

fn verdict_needs(facts: &Facts) -> Needs {
    Needs::of(vec![
        (SETS, facts.sets(), MOST_SETS),
        (PROFILES, facts.profiles(), MOST_PROFILES),
        (WORDS..WORDS + 1, facts.letters(), MOST_LETTERS),
    ])
}

/// Where the model is refused there is no slice to be tried alone.
pub fn for_verdict(facts: &Facts) -> Vec<Room> {
    let needs = verdict_needs(facts);
    if facts.refusal() != 0 {
        return seeded([needs.together(), needs.turned()].concat());
    }
    seeded(needs.all())
}

/// For a model whose search takes long: all rooms that are refused for sets or profiles, where nothing is searched, and of the others some.
pub fn for_long_verdict(facts: &Facts) -> Vec<Room> {
    let needs = verdict_needs(facts);
    let is_refused = |room: &Room| [4, 5].contains(&facts.closed(&room.lengths).number);
    let mut rooms = seeded(needs.all());
    rooms.retain(is_refused);
    let words = seeded(needs.alone(WORDS));
    let some = seeded(vec![needs.need.clone(), needs.limit.clone()]);
    let longest = seeded(vec![vec![LONGEST; WORDS + 1]]);
    rooms.extend(words.into_iter().chain(some).chain(longest));
    rooms
}

fn opposite_needs(facts: &Facts) -> Needs {
    let size = facts.size().filter(|size| size.is_within_limits());
    let (states, arrows) = match size {
        Some(size) => (size.states, size.arrows),
        // Above the limits no room is enough, and without tables there is nothing to be counted.
        None if facts.size().is_some() => (LIMIT, LIMIT),
        None => (20, 20),
    };
    Needs::of(vec![
        (SETS, facts.sets(), MOST_SETS),
        (PROFILES, facts.profiles(), MOST_PROFILES),
        (ARROWS, arrows, LIMIT),
        (FLAGS..FLAGS + 1, states, LIMIT),
    ])
}

pub fn for_opposite(facts: &Facts) -> Vec<Room> {
    let needs = opposite_needs(facts);
    if facts.refusal() != 0 {
        return seeded([needs.together(), needs.turned()].concat());
    }
    seeded(needs.all())
}

/// A large opposite: all slices together; each of its own slices alone one too short, and where that is not too much in other rooms too; and
/// all of different lengths, just enough, and with one set, one profile, one arrow, one state too few, and one of each from the profiles on.
pub fn for_long_opposite(facts: &Facts, one_too_short_only: bool) -> Vec<Room> {
    let needs = opposite_needs(facts);
    let mut lengths = needs.together();
    for slice in TABLES..=FLAGS {
        let alone = needs.alone(slice);
        let rooms = if one_too_short_only { 2..3 } else { 0..5 };
        lengths.extend_from_slice(&alone[rooms]);
    }
    lengths.extend((0..4).map(|group| needs.different(group..group + 1, group)));
    lengths.extend([needs.different(0..0, 1), needs.different(1..4, 2)]);
    seeded(lengths)
}
