//! What must come back of a model, found once and then cut to the room that is lent: a table with less room is the beginning of the whole one.

use crate::model::Verdict;
use crate::models::Given;
use crate::opposite::{counted, Opposite, Size};
use crate::tables::{Entry, Tables, MOST_PROFILES, MOST_SETS};
use std::borrow::Cow;

/// Three for sets and four for profiles come first in every call that closes.
pub const TABLES: usize = 7;
/// Behind them the word memory, for the verdict.
pub const WORDS: usize = 7;
/// Behind them the three slices of arrows and then the flags, for the opposite.
pub const FLAGS: usize = 10;

pub struct Facts {
    refusal: u8,
    /// Whether there are more profiles than the limit.
    is_cut: bool,
    tables: [Vec<u64>; TABLES],
    verdict: Option<Verdict>,
    searched: usize,
    words: Vec<u64>,
    size: Option<Size>,
    opposite: [Vec<u64>; 4],
}

/// The answer's fields in the order of include/cover.h, and what each slice that is written begins with.
pub struct Expected<'a> {
    pub fields: Vec<u64>,
    pub begins: Vec<Cow<'a, [u64]>>,
}

impl Expected<'static> {
    /// Nothing is written.
    pub fn of(fields: Vec<u64>) -> Expected<'static> {
        let begins = Vec::new();
        Expected { fields, begins }
    }

    /// A model or a course that is refused for itself: every other field is 0.
    pub fn refused(number: u8, fields: usize) -> Expected<'static> {
        let mut all = vec![0; fields];
        all[0] = number.into();
        Expected::of(all)
    }
}

/// Number, sets and profiles, with which every closing answers.
pub struct Closed {
    pub number: u8,
    pub sets: usize,
    pub profiles: usize,
}

impl Facts {
    /// All but the opposite, which is long for many models.
    pub fn of(given: &Given) -> Facts {
        let mut facts = Facts::refused(given.refusal());
        if facts.refusal == 0 {
            facts.close(&Tables::close(&given.model, None, None));
        }
        facts
    }

    pub fn with_opposite(given: &Given) -> Facts {
        let mut facts = Facts::refused(given.refusal());
        if facts.refusal == 0 {
            let tables = Tables::close(&given.model, None, None);
            facts.oppose(&tables);
            facts.close(&tables);
        }
        facts
    }

    fn refused(refusal: u8) -> Facts {
        Facts {
            refusal,
            is_cut: false,
            tables: Default::default(),
            verdict: None,
            searched: 0,
            words: Vec::new(),
            size: None,
            opposite: Default::default(),
        }
    }

    fn close(&mut self, tables: &Tables) {
        self.is_cut = tables.refusal() != 0;
        for entry in &tables.sets.entries {
            self.keep(0, vec![entry.value.into()], entry);
        }
        for entry in &tables.profiles.entries {
            let value = vec![entry.value.arrows(), entry.value.marks()];
            self.keep(3, value, entry);
        }
        if !self.is_cut {
            let first = tables.rejecting_pairs().next();
            let (set, profile) = first.unwrap_or((self.sets(), 0));
            self.searched = set * self.profiles() + profile;
            self.verdict = Some(tables.verdict_from(first));
        }
        if let Some(Verdict::Uncovered((u, v))) = &self.verdict {
            self.words = u.iter().chain(v).map(|&letter| letter.into()).collect();
        }
    }

    fn keep<V>(&mut self, first: usize, mut values: Vec<u64>, entry: &Entry<V>) {
        values.extend([entry.predecessor as u64, entry.event.into()]);
        for (column, value) in values.into_iter().enumerate() {
            self.tables[first + column].push(value);
        }
    }

    fn oppose(&mut self, tables: &Tables) {
        if tables.refusal() != 0 {
            return;
        }
        let size = counted(tables);
        self.size = Some(size);
        if !size.is_within_limits() {
            return;
        }
        let opposite = Opposite::build(tables);
        for &(from, event, to) in &opposite.arrows {
            for (column, value) in [from, event, to].into_iter().enumerate() {
                self.opposite[column].push(value as u64);
            }
        }
        let flags = opposite.accepting.iter();
        self.opposite[3] = flags.map(|&accepting| accepting.into()).collect();
    }

    pub fn refusal(&self) -> u8 {
        self.refusal
    }

    pub fn sets(&self) -> usize {
        self.tables[0].len()
    }

    pub fn profiles(&self) -> usize {
        self.tables[3].len()
    }

    pub fn is_cut(&self) -> bool {
        self.is_cut
    }

    /// How many letters u and v have together, 0 where there are none.
    pub fn letters(&self) -> usize {
        self.words.len()
    }

    /// How many pairs come before the first that rejects, by which the search takes its time.
    pub fn searched(&self) -> usize {
        self.searched
    }

    pub fn size(&self) -> Option<Size> {
        self.size
    }

    pub fn closed(&self, lengths: &[usize]) -> Closed {
        let room = |first: usize, last: usize, limit: usize| {
            let shortest = lengths[first..last].iter().min();
            shortest.map_or(0, |&room| room.min(limit))
        };
        let set_room = room(0, 3, MOST_SETS);
        let profile_room = room(3, TABLES, MOST_PROFILES);
        let (number, sets, profiles) = if self.refusal != 0 {
            (self.refusal, 0, 0)
        } else if self.sets() > set_room {
            (4, set_room, 0)
        } else if self.is_cut || self.profiles() > profile_room {
            (5, self.sets(), profile_room)
        } else {
            (0, self.sets(), self.profiles())
        };
        Closed {
            number,
            sets,
            profiles,
        }
    }

    /// What stands in the tables' slices.
    pub fn entered(&self, closed: &Closed) -> Vec<Cow<'_, [u64]>> {
        let count = |column: usize| {
            if column < 3 {
                closed.sets
            } else {
                closed.profiles
            }
        };
        let tables = self.tables.iter().enumerate();
        tables
            .map(|(column, values)| values[..count(column)].into())
            .collect()
    }

    /// u and then v go to the word memory if both fit into it. The verdict is 0 for none, 1 for "covered", 2 for "uncovered".
    pub fn verdict(&self, lengths: &[usize]) -> Expected<'_> {
        let closed = self.closed(lengths);
        let words = &self.words[..];
        let (number, verdict, u, v, words) = match &self.verdict {
            _ if closed.number != 0 => (closed.number, 0, 0, 0, &words[..0]),
            Some(Verdict::Uncovered(_)) if words.len() > lengths[WORDS] => {
                (6, 0, 0, 0, &words[..0])
            }
            Some(Verdict::Uncovered((u, v))) => (0, 2, u.len(), v.len(), words),
            _ => (0, 1, 0, 0, words),
        };
        let counts = [closed.sets, closed.profiles, u, v];
        let mut fields = vec![number.into(), verdict];
        fields.extend(counts.map(|count| count as u64));
        let mut begins = self.entered(&closed);
        begins.push(words.into());
        Expected { fields, begins }
    }

    pub fn opposite(&self, lengths: &[usize]) -> Expected<'_> {
        let closed = self.closed(lengths);
        let (number, states, arrows) = match self.size {
            Some(size) if closed.number == 0 && holds(lengths, size) => {
                (0, size.states, size.arrows)
            }
            _ if closed.number == 0 => (7, 0, 0),
            _ => (closed.number, 0, 0),
        };
        let counts = [closed.sets, closed.profiles, states, arrows];
        let mut fields = vec![u64::from(number)];
        fields.extend(counts.map(|count| count as u64));
        let mut begins = self.entered(&closed);
        begins.extend(
            self.opposite[..3]
                .iter()
                .map(|column| column[..arrows].into()),
        );
        begins.push(self.opposite[3][..states].into());
        Expected { fields, begins }
    }
}

fn holds(lengths: &[usize], size: Size) -> bool {
    let arrows = lengths[TABLES..FLAGS]
        .iter()
        .all(|&room| size.arrows <= room);
    size.is_within_limits() && arrows && size.states <= lengths[FLAGS]
}
