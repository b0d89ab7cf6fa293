//! What is asked of the C interface about one model, and what must come back: in every room, with any number of arrow numbers lent, and of
//! courses and files.

use crate::course::Course;
use crate::courses::judged;
use crate::damage::File;
use crate::driver::{Call, Case, Lent, Question};
use crate::facts::{Expected, Facts};
use crate::file::read;
use crate::models::Given;
use crate::rooms::{Room, LONGEST};

/// A file, and the room for arrow numbers.
#[derive(Clone)]
pub struct Reading {
    pub file: File,
    pub room: usize,
}

fn numbers(given: &Given) -> [u64; 4] {
    let (start, home) = (given.model.start, given.model.home);
    [given.n, given.k, start.into(), home.into()]
}

fn with_slices(given: &Given, call: Call, room: &Room) -> Case {
    let arrows = Lent::Numbers(given.model.arrows.clone());
    let written = room.lengths.iter().map(|&length| Lent::Written(length));
    Case {
        call,
        times: 0,
        seed: room.seed,
        numbers: numbers(given),
        slices: std::iter::once(arrows).chain(written).collect(),
    }
}

/// The facts are those of the model; it may be refused for the arrow numbers that are lent.
pub fn verdict<'a>(given: &Given, facts: &'a Facts, room: &Room) -> Question<'a> {
    Question {
        case: with_slices(given, Call::Verdict, room),
        expected: match given.refusal() {
            0 => facts.verdict(&room.lengths),
            number => Expected::refused(number, 6),
        },
    }
}

pub fn opposite<'a>(given: &Given, facts: &'a Facts, room: &Room) -> Question<'a> {
    Question {
        case: with_slices(given, Call::Opposite, room),
        expected: match given.refusal() {
            0 => facts.opposite(&room.lengths),
            number => Expected::refused(number, 5),
        },
    }
}

/// The judgement is 0 for none, 1 for accepted, 2 for not accepted.
pub fn course(given: &Given, (u, v): &Course, seed: u64) -> Question<'static> {
    let expected = match judged(given, u, v) {
        Ok(true) => Expected::of(vec![0, 1]),
        Ok(false) => Expected::of(vec![0, 2]),
        Err(number) => Expected::refused(number, 2),
    };
    let arrows = Lent::Numbers(given.model.arrows.clone());
    let words = [u, v].map(|word| Lent::Bytes(word.clone()));
    Question {
        case: Case {
            call: Call::Course,
            times: 0,
            seed,
            numbers: numbers(given),
            slices: std::iter::once(arrows).chain(words).collect(),
        },
        expected,
    }
}

pub fn reading(reading: &Reading, seed: u64) -> Question<'static> {
    let Reading { file, room } = reading;
    let expected = match read(file, *room) {
        Ok(model) => {
            let counts = [0, 0, model.n as u64, model.k as u64];
            let masks = [model.start.into(), model.home.into()];
            Expected {
                fields: [&counts[..], &masks].concat(),
                begins: vec![model.arrows.into()],
            }
        }
        Err(fault) => {
            let mut expected = Expected::refused(fault.number, 6);
            expected.fields[1] = fault.offset as u64;
            expected
        }
    };
    Question {
        case: Case {
            call: Call::Read,
            times: 0,
            seed,
            numbers: [0; 4],
            slices: vec![Lent::Bytes(file.clone()), Lent::Written(*room)],
        },
        expected,
    }
}

/// The model with no arrow number lent, one too few, k, some more with anything in them, and very many.
pub fn lendings(given: &Given) -> Vec<Given> {
    let k = given.k.min(17) as usize;
    if given.model.arrows.len() < k {
        return Vec::new();
    }
    let junk = |place: usize| (place as u64 + 1).wrapping_mul(0x9E37_79B9_7F4A_7C15);
    let lent = |length: usize| {
        let mut other = given.clone();
        other.model.arrows.truncate(k.min(length));
        let lent = other.model.arrows.len();
        other.model.arrows.extend((lent..length).map(junk));
        other
    };
    let lengths = [0, k.saturating_sub(1), k, k + 1, k + 9, LONGEST];
    lengths.map(lent).into()
}
