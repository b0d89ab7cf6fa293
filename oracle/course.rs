//! Judges one course by searching the product of a machine with the positions of the course.

use crate::machine::Machine;

/// The beginning u and the round v.
pub type Course = (Vec<u8>, Vec<u8>);

pub fn accepts(machine: &Machine, u: &[u8], v: &[u8]) -> bool {
    assert!(!v.is_empty(), "a course needs a round");
    let product = Product::new(machine, u, v);
    let known = |&event: &u8| usize::from(event) < machine.events;
    assert!(product.letters.iter().all(known), "an unknown event");
    let finished = product.finish_order();
    let component = product.components(&finished);
    let mut has_inner_edge = vec![false; product.size()];
    let mut has_home = vec![false; product.size()];
    for &node in &finished {
        let own = component[node];
        has_home[own] |= machine.home[product.state(node)];
        let next_nodes = product.next(node);
        has_inner_edge[own] |= next_nodes.iter().any(|&next| component[next] == own);
    }
    (0..product.size()).any(|number| has_inner_edge[number] && has_home[number])
}

/// Each event after a space, so that an empty word prints as nothing.
pub fn letters(word: &[u8]) -> String {
    word.iter().map(|event| format!(" {}", event)).collect()
}

pub fn show(u: &[u8], v: &[u8]) -> String {
    format!("course u{} v{}", letters(u), letters(v))
}

/// Node `state * positions + position` stands for being in the state before reading that position.
struct Product<'a> {
    machine: &'a Machine,
    letters: Vec<u8>,
    back_to: usize,
}

impl<'a> Product<'a> {
    fn new(machine: &'a Machine, u: &[u8], v: &[u8]) -> Product<'a> {
        Product {
            machine,
            letters: [u, v].concat(),
            back_to: u.len(),
        }
    }

    fn size(&self) -> usize {
        self.machine.states * self.letters.len()
    }

    fn state(&self, node: usize) -> usize {
        node / self.letters.len()
    }

    fn next(&self, node: usize) -> Vec<usize> {
        let positions = self.letters.len();
        let position = node % positions;
        let after = if position + 1 < positions {
            position + 1
        } else {
            self.back_to
        };
        let event = self.letters[position] as usize;
        let states = &self.machine.arrows[self.state(node)][event];
        states
            .iter()
            .map(|&state| state * positions + after)
            .collect()
    }

    fn start_nodes(&self) -> Vec<usize> {
        let starts = (0..self.machine.states).filter(|&state| self.machine.start[state]);
        starts.map(|state| state * self.letters.len()).collect()
    }

    /// The nodes reachable from a start node, each after all that the search met below it.
    fn finish_order(&self) -> Vec<usize> {
        let mut seen = vec![false; self.size()];
        let mut finished = Vec::new();
        for start in self.start_nodes() {
            if seen[start] {
                continue;
            }
            seen[start] = true;
            // An own stack, because a large product would exhaust the call stack.
            let mut open = vec![(start, self.next(start))];
            while let Some((node, untried)) = open.last_mut() {
                match untried.pop() {
                    Some(next) if seen[next] => {}
                    Some(next) => {
                        seen[next] = true;
                        open.push((next, self.next(next)));
                    }
                    None => {
                        finished.push(*node);
                        open.pop();
                    }
                }
            }
        }
        finished
    }

    /// Gives every reachable node its strongly connected component, named by one of its nodes.
    fn components(&self, finished: &[usize]) -> Vec<usize> {
        let unnamed = self.size();
        let mut component = vec![unnamed; self.size()];
        let before = self.reversed(finished);
        // Going back from the last finished node cannot leave its component into an unnamed one.
        for &root in finished.iter().rev() {
            let mut open = vec![root];
            while let Some(node) = open.pop() {
                if component[node] == unnamed {
                    component[node] = root;
                    open.extend(&before[node]);
                }
            }
        }
        component
    }

    fn reversed(&self, nodes: &[usize]) -> Vec<Vec<usize>> {
        let mut before = vec![Vec::new(); self.size()];
        for &node in nodes {
            for next in self.next(node) {
                before[next].push(node);
            }
        }
        before
    }
}
