//! Runs the library through its C interface on all cases, and holds every answer and every place of all memory against what is found here.

use crate::asked::{course, lendings, opposite, reading, verdict, Reading};
use crate::cases::{Group, Work, GROUPS, SMALL_GROUPS};
use crate::children::each;
use crate::course::Course;
use crate::driver::{ask, Call, Question, Told};
use crate::facts::Facts;
use crate::models::{Given, MANY};
use crate::rooms::{for_long_opposite, for_long_verdict, for_opposite, for_verdict, Room};
use crate::wide::assert_wide;
use std::collections::BTreeMap;

/// So many of the first rooms are enough.
const WITH_ROOM: usize = 4;
/// With more pairs before the first that rejects the search takes long.
const LONG_SEARCH: usize = 100_000;
/// With more arrows a run of the opposite takes long, and with still more very long.
const LARGE: usize = 2_000;
const LARGEST: usize = 10_000;

/// How often each answer was given.
pub type Tally = BTreeMap<String, usize>;

/// `runner` is the command that runs the driver.
pub fn run(runner: &[&str]) -> i32 {
    match all_told(runner, &GROUPS) {
        None => 1,
        Some(all) => {
            assert_wide(&all);
            println!("{} cases: {}", all.len(), shown(&tallied(&all)));
            0
        }
    }
}

/// The first groups alone, with every call among them.
pub fn run_small(runner: &[&str]) -> i32 {
    i32::from(all_told(runner, &GROUPS[..SMALL_GROUPS]).is_none())
}

/// All that came back, or none where something was wrong, which is then printed.
fn all_told(runner: &[&str], groups: &[Group]) -> Option<Vec<Told>> {
    let mut all = Vec::new();
    for (name, works) in groups {
        match each(&works(), |work| answered(runner, work)) {
            Ok(told) => {
                let told: Vec<Told> = told.into_iter().flatten().collect();
                println!("ok {}: {}: {}", name, told.len(), shown(&tallied(&told)));
                all.extend(told);
            }
            Err(fault) => {
                println!("FAILED {}: {}", name, fault);
                return None;
            }
        }
    }
    Some(all)
}

pub fn tallied(told: &[Told]) -> Tally {
    let mut tally = Tally::new();
    for told in told {
        *tally.entry(kind(told)).or_default() += 1;
    }
    tally
}

pub fn shown(tally: &Tally) -> String {
    let each = tally.iter();
    let each = each.map(|(answer, count)| format!("{} {}", answer, count));
    each.collect::<Vec<String>>().join(", ")
}

/// What was answered, in words.
fn kind(told: &Told) -> String {
    let done = match (told.call, told.fields[1]) {
        (Call::Verdict, 1) => "covered",
        (Call::Verdict, _) => "uncovered",
        (Call::Opposite, _) => "opposite written",
        (Call::Course, 1) => "course accepted",
        (Call::Course, _) => "course not accepted",
        (Call::Read, _) => "file read",
    };
    let what = match told.call {
        Call::Verdict => "verdict",
        Call::Opposite => "opposite",
        Call::Course => "course",
        Call::Read => "file",
    };
    match told.fields[0] {
        0 => done.to_string(),
        number => format!("{} refused {}", what, number),
    }
}

/// One process of the driver for each piece of work, or several where a case takes long, so that a fault is told soon.
fn answered(runner: &[&str], work: &Work) -> Result<Vec<Told>, String> {
    match work {
        Work::Verdict(given) => {
            let facts = Facts::of(given);
            let at_once = if facts.profiles() > MANY {
                4
            } else {
                usize::MAX
            };
            in_parts(runner, &of_verdict(given, &facts), at_once)
        }
        Work::Opposite(given) => {
            let facts = Facts::with_opposite(given);
            let at_once = if is_large(&facts) { 4 } else { usize::MAX };
            in_parts(runner, &of_opposite(given, &facts), at_once)
        }
        Work::Courses(given, courses) => ask(runner, &of_courses(given, courses)),
        Work::Files(readings) => ask(runner, &of_files(readings)),
    }
}

fn in_parts(runner: &[&str], questions: &[Question], at_once: usize) -> Result<Vec<Told>, String> {
    let mut told = Vec::new();
    for part in questions.chunks(at_once) {
        told.extend(ask(runner, part)?);
    }
    Ok(told)
}

/// In every room, and with any number of arrow numbers lent.
fn of_verdict<'a>(given: &Given, facts: &'a Facts) -> Vec<Question<'a>> {
    let takes_long = facts.searched() > LONG_SEARCH;
    let rooms = match takes_long {
        true => for_long_verdict(facts),
        false => for_verdict(facts),
    };
    let in_room = |room: &Room| verdict(given, facts, room);
    let mut questions: Vec<Question> = rooms.iter().map(in_room).collect();
    if !takes_long {
        let lent = lendings(given);
        let lent = lent.iter().zip(rooms.iter().take(WITH_ROOM).cycle());
        questions.extend(lent.map(|(lent, room)| verdict(lent, facts, room)));
    }
    questions
}

fn is_large(facts: &Facts) -> bool {
    arrows(facts) > LARGE || facts.profiles() > MANY
}

/// How many the opposite has, 0 where there is none.
fn arrows(facts: &Facts) -> usize {
    facts.size().map_or(0, |size| size.arrows)
}

fn of_opposite<'a>(given: &Given, facts: &'a Facts) -> Vec<Question<'a>> {
    let rooms = match is_large(facts) {
        true => for_long_opposite(facts, arrows(facts) > LARGEST || facts.profiles() > MANY),
        false => for_opposite(facts),
    };
    let in_room = |room: &Room| opposite(given, facts, room);
    let mut questions: Vec<Question> = rooms.iter().map(in_room).collect();
    if !is_large(facts) {
        let lent = lendings(given);
        let lent = lent.iter().zip(rooms.iter().take(WITH_ROOM).cycle());
        questions.extend(lent.map(|(lent, room)| opposite(lent, facts, room)));
    }
    questions
}

/// Each course, and the first of them with any number of arrow numbers lent.
fn of_courses(given: &Given, courses: &[Course]) -> Vec<Question<'static>> {
    let seeds = (1..8).chain([0]).cycle();
    let mut questions: Vec<Question> = courses
        .iter()
        .zip(seeds)
        .map(|(one, seed)| course(given, one, seed))
        .collect();
    for one in courses.iter().take(1) {
        let lent = lendings(given);
        questions.extend(
            lent.iter()
                .zip(1..)
                .map(|(lent, seed)| course(lent, one, seed)),
        );
    }
    questions
}

fn of_files(readings: &[Reading]) -> Vec<Question<'static>> {
    let seeds = (1..8).chain([0]).cycle();
    let seeded = readings.iter().zip(seeds);
    seeded.map(|(one, seed)| reading(one, seed)).collect()
}
