//! Courses for one model: all short ones, those at every edge of what is refused, and random ones of every length.

use crate::course::{accepts, Course};
use crate::models::Given;
use crate::random::Random;

/// As long as the words of a stored course can be.
pub const MOST_LETTERS: usize = 40;

/// The refusal's number, or whether the course is accepted.
pub fn judged(given: &Given, u: &[u8], v: &[u8]) -> Result<bool, u8> {
    let unknown = |&letter: &u8| u64::from(letter) >= given.k;
    match given.refusal() {
        0 if v.is_empty() => Err(10),
        0 if u.iter().chain(v).any(unknown) => Err(9),
        0 => Ok(accepts(&given.model.machine(), u, v)),
        number => Err(number),
    }
}

pub fn short_courses(k: usize) -> Vec<Course> {
    let words = words_up_to(k, 3);
    let rounds = words.iter().filter(|v| !v.is_empty());
    let with =
        |v: &Vec<u8>| -> Vec<Course> { words.iter().map(|u| (u.clone(), v.clone())).collect() };
    rounds.flat_map(with).collect()
}

pub fn words_up_to(k: usize, most: usize) -> Vec<Vec<u8>> {
    let mut words = vec![vec![]];
    let mut longest = words.clone();
    for _ in 0..most {
        let with = |word: &Vec<u8>| {
            let more = (0..k as u8).map(|event| [word.as_slice(), &[event]].concat());
            more.collect::<Vec<Vec<u8>>>()
        };
        longest = longest.iter().flat_map(with).collect();
        words.extend(longest.clone());
    }
    words
}

/// Courses at every edge: no round; the letters k, k + 1, 128 and 255, in u and in v, first and last; two faults at once.
pub fn edge_courses(k: u8) -> Vec<Course> {
    let last = k - 1;
    let many = |letter: u8| vec![letter; MOST_LETTERS];
    let late = |letter: u8| [vec![0; MOST_LETTERS - 1], vec![letter]].concat();
    let mut courses = vec![
        (vec![], vec![]),
        (vec![0], vec![]),
        (vec![k], vec![]),
        (vec![255], vec![]),
        (vec![], vec![0]),
        (vec![], vec![last]),
        (vec![last], vec![last]),
        (vec![k], vec![k]),
        (late(last), late(last)),
        (many(0), many(last)),
        (many(last), many(0)),
    ];
    for letter in [k, k + 1, 128, 255] {
        for word in [
            vec![letter],
            vec![letter, 0],
            vec![0, letter, 0],
            late(letter),
        ] {
            courses.push((word.clone(), vec![0]));
            courses.push((vec![], word.clone()));
            courses.push((vec![0], word));
        }
    }
    courses
}

/// Every length of u from 0 to 40 and, since 41 and 7 share no factor, every length of v from 1 to 40.
pub fn of_every_length(random: &mut Random, k: usize) -> Vec<Course> {
    let lengths = (0..=MOST_LETTERS).map(|i| (i, 1 + i * 7 % 41 % MOST_LETTERS));
    let course = |(u, v)| (random.word(k, u), random.word(k, v));
    lengths.map(course).collect()
}
