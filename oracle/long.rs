//! The longer run, outside the gate: random models and damaged files of one seed, through the program and through the library's C interface.

use crate::asked::{course, opposite, reading, verdict, Reading};
use crate::children::each;
use crate::course::Course;
use crate::damage::{
    beyond, changed, cut, lengthened, noise, reordered, scratched, shifted, valid, File,
};
use crate::driver::{ask, Question};
use crate::facts::Facts;
use crate::file::bytes_of;
use crate::library::{shown, tallied, Tally};
use crate::model::{Model, MOST_EVENTS, MOST_STATES};
use crate::models::{damaged, plain, Given, MANY};
use crate::program::{compare, kind};
use crate::random::Random;
use crate::rooms::{for_long_opposite, for_verdict, Room, LONGEST};

/// With n up to 8 and k up to 16 these are more than 20,000.
const OF_EACH_SIZE: usize = 157;
const WRONG: usize = 4_000;
/// How many files come from one model by one kind of damage.
const FROM_EACH: usize = 10;
/// Models with more profiles take long in every room.
const SMALL: usize = 50;
/// How many models, and how many files, one process of the driver is asked about.
const MODELS_AT_ONCE: usize = 20;
const FILES_AT_ONCE: usize = 1_000;

/// `runner` is the command that runs the program, and the driver.
pub fn run(seed: u64, program: &str, driver: &str, runner: &[&str]) -> i32 {
    println!("seed {}", seed);
    let command = |file| [runner, &[file]].concat();
    match compared(seed, &command(program), &command(driver)) {
        Ok(told) => {
            println!("{} with seed {}: all agree", told, seed);
            0
        }
        Err(fault) => {
            println!("FAILED {}", fault);
            1
        }
    }
}

fn compared(seed: u64, program: &[&str], driver: &[&str]) -> Result<String, String> {
    let random = &mut Random::new(seed);
    let models = valid(random, OF_EACH_SIZE);
    let damaged = damaged_files(random);
    let wrong: Vec<Given> = (0..WRONG).map(|_| wrong(random)).collect();

    let mut tallies = vec![read(driver, "whole files", &around_k(&models))?];
    for (name, files) in &damaged {
        tallies.push(read(driver, name, &with_any_room(random, files))?);
    }
    let whole: Vec<File> = models.iter().map(bytes_of).collect();
    checked(program, "whole files", &whole)?;
    for (name, files) in &damaged {
        checked(program, name, files)?;
    }
    let sound: Vec<Given> = models.into_iter().map(plain).collect();
    tallies.push(run_through(driver, "models", random, &sound)?);
    tallies.push(run_through(driver, "wrong models", random, &wrong)?);
    assert_wide(&together(tallies));
    let files: usize = damaged.iter().map(|(_, files)| files.len()).sum();
    Ok(format!(
        "{} models and {} damaged files compared in the program and in the library, {} wrong models in the library,",
        sound.len(),
        files,
        wrong.len()
    ))
}

fn ok(what: &str, name: &str, count: usize, tally: &Tally) {
    println!("ok {}, {}: {}: {}", what, name, count, shown(tally));
}

/// The library gave every answer there is.
fn assert_wide(tally: &Tally) {
    let refused = |what: &'static str, numbers: &'static [u8]| {
        let each = numbers.iter();
        each.map(move |number| format!("{} refused {}", what, number))
    };
    let done = [
        "covered",
        "uncovered",
        "opposite written",
        "course accepted",
        "course not accepted",
        "file read",
    ];
    let answers = done.map(String::from).into_iter();
    let answers = answers
        .chain(refused("verdict", &[1, 2, 3, 4, 5, 6]))
        .chain(refused("opposite", &[1, 2, 3, 4, 5, 7]))
        .chain(refused("course", &[1, 2, 3, 9, 10]))
        .chain(refused("file", &[1, 2, 3, 8]));
    for answer in answers {
        assert!(tally.contains_key(&answer), "no {}", answer);
    }
}

/// Files of each kind of damage, from random models' files.
fn damaged_files(random: &mut Random) -> Vec<(&'static str, Vec<File>)> {
    let mut bits = Vec::new();
    while bits.len() < 10_000 {
        bits.extend(beyond(random));
    }
    vec![
        ("a byte changed", of_files(random, changed, 25_000)),
        ("cut", of_files(random, cut, 15_000)),
        ("bytes added", of_files(random, lengthened, 5_000)),
        (
            "a byte left out or doubled",
            of_files(random, shifted, 20_000),
        ),
        (
            "a field left out, doubled or swapped",
            of_files(random, reordered, 15_000),
        ),
        ("a bit for a state n or above", bits),
        ("up to three bytes changed", scratched(random, 20_000)),
        ("random bytes behind a beginning", noise(random, 10_000)),
    ]
}

fn of_files(random: &mut Random, damage: fn(&File) -> Vec<File>, count: usize) -> Vec<File> {
    let mut files = Vec::new();
    while files.len() < count {
        let all = damage(&bytes_of(&random.model_up_to(MOST_STATES, MOST_EVENTS)));
        files.extend(picked(random, all, FROM_EACH));
    }
    files
}

fn picked<T>(random: &mut Random, mut all: Vec<T>, most: usize) -> Vec<T> {
    let count = most.min(all.len());
    (0..count)
        .map(|_| all.swap_remove(random.below(all.len())))
        .collect()
}

/// A model with something wrong in most of these, also with n or k out of range, and some with an arrow number more than events.
fn wrong(random: &mut Random) -> Given {
    let model = random.model_up_to(MOST_STATES, MOST_EVENTS);
    let mut given = damaged(random, model);
    match random.below(6) {
        0 => given.n = out_of_range(random, MOST_STATES),
        1 => given.k = out_of_range(random, MOST_EVENTS),
        2 => given.model.arrows.push(u64::MAX),
        _ => {}
    }
    given
}

/// Numbers that fewer bits would take for one in range are among them.
fn out_of_range(random: &mut Random, most: usize) -> u64 {
    let inside = 1 + random.below(most) as u64;
    let values = [
        0,
        most as u64 + inside,
        256 + inside,
        (1 << 32) + inside,
        u64::MAX,
    ];
    values[random.below(values.len())]
}

/// The program on files, one process each.
fn checked(program: &[&str], name: &str, files: &[File]) -> Result<(), String> {
    let printed =
        compare(program, files).map_err(|fault| format!("the program, {}: {}", name, fault))?;
    let mut tally = Tally::new();
    for text in printed {
        *tally.entry(kind(&text)).or_default() += 1;
    }
    ok("the program", name, files.len(), &tally);
    Ok(())
}

/// Each model's file with no room for arrow numbers, one too few, just enough and one more.
fn around_k(models: &[Model]) -> Vec<Reading> {
    let each = |model: &Model| {
        let file = bytes_of(model);
        [0, model.k - 1, model.k, model.k + 1].map(|room| Reading {
            file: file.clone(),
            room,
        })
    };
    models.iter().flat_map(each).collect()
}

/// Each file with room for all arrow numbers, as in the program, and with any other room.
fn with_any_room(random: &mut Random, files: &[File]) -> Vec<Reading> {
    let mut each = |file: &File| {
        [MOST_EVENTS, random.below(21)].map(|room| Reading {
            file: file.clone(),
            room,
        })
    };
    files.iter().flat_map(&mut each).collect()
}

fn read(driver: &[&str], name: &str, readings: &[Reading]) -> Result<Tally, String> {
    let parts: Vec<&[Reading]> = readings.chunks(FILES_AT_ONCE).collect();
    let told = each(&parts, |part| {
        let numbered = part.iter().zip(0..);
        let questions: Vec<Question> = numbered.map(|(one, seed)| reading(one, seed)).collect();
        Ok(tallied(&ask(driver, &questions)?))
    });
    let tallies = told.map_err(|fault| format!("the library's reader, {}: {}", name, fault))?;
    let tally = together(tallies);
    ok("the library's reader", name, readings.len(), &tally);
    Ok(tally)
}

fn together(tallies: Vec<Tally>) -> Tally {
    let mut all = Tally::new();
    for (answer, count) in tallies.into_iter().flatten() {
        *all.entry(answer).or_default() += count;
    }
    all
}

fn run_through(
    driver: &[&str],
    name: &str,
    random: &mut Random,
    all: &[Given],
) -> Result<Tally, String> {
    let parts = all.chunks(MODELS_AT_ONCE);
    // Each part has its own seed, so that it does not matter who takes it and when.
    let parts: Vec<_> = parts
        .map(|part| (random.below(1 << 32) as u64, part))
        .collect();
    let told = each(&parts, |(seed, part)| {
        let random = &mut Random::new(*seed);
        let facts: Vec<Facts> = part.iter().map(|given| found(random, given)).collect();
        let questions: Vec<Question> = part
            .iter()
            .zip(&facts)
            .flat_map(|(given, facts)| questions(random, given, facts))
            .collect();
        Ok(tallied(&ask(driver, &questions)?))
    });
    let tally = together(told.map_err(|fault| format!("the library, {}: {}", name, fault))?);
    ok("the library", name, all.len(), &tally);
    Ok(tally)
}

/// With its opposite, but of models with very many profiles only now and then.
fn found(random: &mut Random, given: &Given) -> Facts {
    match given.has_more_profiles(MANY) && random.below(8) > 0 {
        true => Facts::of(given),
        false => Facts::with_opposite(given),
    }
}

fn questions<'a>(random: &mut Random, given: &Given, facts: &'a Facts) -> Vec<Question<'a>> {
    let rooms = verdict_rooms(random, facts);
    let mut questions: Vec<Question> = rooms
        .iter()
        .map(|room| verdict(given, facts, room))
        .collect();
    if facts.refusal() != 0 || facts.is_cut() || facts.size().is_some() {
        let rooms = opposite_rooms(random, facts);
        questions.extend(rooms.iter().map(|room| opposite(given, facts, room)));
    }
    let courses = courses(random, given.model.k);
    let seeded = courses.iter().zip(0..);
    questions.extend(seeded.map(|(one, seed)| course(given, one, seed)));
    questions
}

/// Small models and some others in every room, all others in slices that 16 bits cannot count. Very long slices are rare, since they take long
/// to fill and to compare.
fn verdict_rooms(random: &mut Random, facts: &Facts) -> Vec<Room> {
    let is_long = |room: &Room| room.lengths.contains(&LONGEST);
    let mut rooms = for_verdict(facts);
    let profiles = facts.profiles();
    if profiles > MANY || profiles > SMALL && random.below(16) > 0 {
        rooms.retain(|room| room.lengths.iter().all(|&length| length == LONGEST));
    } else if random.below(64) > 0 {
        rooms.retain(|room| !is_long(room));
    }
    rooms
}

/// With room enough, and two others.
fn opposite_rooms(random: &mut Random, facts: &Facts) -> Vec<Room> {
    let mut others = for_long_opposite(facts, false);
    let mut rooms = vec![others.remove(0)];
    rooms.extend(picked(random, others, 2));
    rooms
}

/// Short and long ones, one that may have an unknown event, and one without a round.
fn courses(random: &mut Random, k: usize) -> Vec<Course> {
    let mut courses: Vec<Course> = (0..6).map(|_| random.course(k, 6)).collect();
    courses.extend((0..2).map(|_| random.course(k, 40)));
    courses.push(random.course(k + 1, 6));
    courses.push((random.word(k, 3), vec![]));
    courses
}
