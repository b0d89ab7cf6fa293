//! A profile as a grid of links, joined by taking the best link over all states between.

use crate::model::{bit, in_mask, Model};

/// Ordered so that the greater link is the one that counts.
#[derive(Clone, Copy, PartialEq, Eq, PartialOrd, Ord, Hash)]
enum Link {
    Absent,
    Plain,
    Marked,
}

#[derive(Clone, PartialEq, Eq, Hash)]
pub struct Profile {
    n: usize,
    links: Vec<Link>,
}

impl Profile {
    fn absent(n: usize) -> Profile {
        Profile {
            n,
            links: vec![Link::Absent; n * n],
        }
    }

    pub fn of_event(model: &Model, event: usize) -> Profile {
        let mut profile = Profile::absent(model.n);
        for p in 0..model.n {
            for q in (0..model.n).filter(|&q| model.leads(event, p, q)) {
                let home = in_mask(model.home, q);
                profile.raise(p, q, if home { Link::Marked } else { Link::Plain });
            }
        }
        profile
    }

    pub fn then(&self, later: &Profile) -> Profile {
        let mut joined = Profile::absent(self.n);
        for p in 0..self.n {
            for r in (0..self.n).filter(|&r| self.link(p, r) != Link::Absent) {
                for q in (0..self.n).filter(|&q| later.link(r, q) != Link::Absent) {
                    joined.raise(p, q, self.link(p, r).max(later.link(r, q)));
                }
            }
        }
        joined
    }

    /// The states reached from the states of the set.
    pub fn lead(&self, set: u8) -> u8 {
        let reached =
            |q: usize| (0..self.n).any(|p| in_mask(set, p) && self.link(p, q) != Link::Absent);
        (0..self.n)
            .filter(|&q| reached(q))
            .fold(0, |mask, q| mask | 1 << q)
    }

    pub fn is_marked(&self, p: usize, q: usize) -> bool {
        self.link(p, q) == Link::Marked
    }

    pub fn arrows(&self) -> u64 {
        self.bits_from(Link::Plain)
    }

    pub fn marks(&self) -> u64 {
        self.bits_from(Link::Marked)
    }

    fn bits_from(&self, least: Link) -> u64 {
        let places = (0..self.n * self.n).filter(|&place| self.links[place] >= least);
        places.fold(0, |bits, place| bits | bit(place / self.n, place % self.n))
    }

    fn link(&self, p: usize, q: usize) -> Link {
        self.links[p * self.n + q]
    }

    fn raise(&mut self, p: usize, q: usize, link: Link) {
        let place = &mut self.links[p * self.n + q];
        *place = link.max(*place);
    }
}
