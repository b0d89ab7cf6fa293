//! A machine of any size: models and opposites become one, so that a single search judges both.

pub struct Machine {
    pub states: usize,
    pub events: usize,
    pub start: Vec<bool>,
    pub home: Vec<bool>,
    /// `arrows[p][event]` lists the states that the event leads to from p.
    pub arrows: Vec<Vec<Vec<usize>>>,
}

impl Machine {
    pub fn new(states: usize, events: usize) -> Machine {
        Machine {
            states,
            events,
            start: vec![false; states],
            home: vec![false; states],
            arrows: vec![vec![Vec::new(); events]; states],
        }
    }

    pub fn add_arrow(&mut self, p: usize, event: usize, q: usize) {
        self.arrows[p][event].push(q);
    }
}
