//! The stored cases that the gate itself runs: models, courses and opposites with memory of full size, and what the library's program must
//! print of them. Every other room is tried by the driver.

use crate::course::Course;
use crate::courses::{
    edge_courses, judged, of_every_length, short_courses, words_up_to, MOST_LETTERS,
};
use crate::facts::{Expected, Facts};
use crate::models::{
    at_the_limit, damaged, edges, large, named_missing, near_the_limits, of_every_size, plain,
    rings, small, Given, MANY,
};
use crate::opposite::LIMIT;
use crate::random::Random;
use crate::tables::{MOST_PROFILES, MOST_SETS};
use std::fs;
use std::path::Path;

struct Case {
    given: Given,
    asked: Asked,
}

enum Asked {
    Verdict,
    Course(Course),
    Opposite,
}

const MOST_ARROWS: usize = 17;
/// Enough for the tables of every model, as far as the limits go.
const TABLES: [usize; 7] = [
    MOST_SETS,
    MOST_SETS,
    MOST_SETS,
    MOST_PROFILES,
    MOST_PROFILES,
    MOST_PROFILES,
    MOST_PROFILES,
];
const WORDS: usize = 2_304;
/// What stands in every place before a call.
const BEFORE: u64 = 9;
const SEED: u64 = 4;

/// Writes the cases to `stdin` and what the library must print of them to `stdout`.
pub fn write(folder: &Path) -> i32 {
    let cases = cases();
    let bytes: Vec<u8> = cases.iter().flat_map(stored).collect();
    let lines: Vec<String> = cases.iter().map(printed).collect();
    assert_wide(&cases, &lines);
    let written = fs::create_dir_all(folder)
        .and_then(|_| fs::write(folder.join("stdin"), bytes))
        .and_then(|_| fs::write(folder.join("stdout"), lines.join("\n") + "\n"));
    match written {
        Ok(()) => {
            println!("{} models, {} lines", cases.len(), lines.len());
            0
        }
        Err(fault) => {
            eprintln!("oracle: {}", fault);
            1
        }
    }
}

fn stored(case: &Case) -> Vec<u8> {
    let Given { n, k, model } = &case.given;
    let asked = match case.asked {
        Asked::Verdict => 0,
        Asked::Course(_) => 1,
        Asked::Opposite => 2,
    };
    let mut bytes = vec![model.start, model.home, model.arrows.len() as u8, asked];
    bytes.extend(n.to_le_bytes());
    bytes.extend(k.to_le_bytes());
    for event in 0..MOST_ARROWS {
        let arrows = model.arrows.get(event).copied().unwrap_or(0);
        bytes.extend(arrows.to_le_bytes());
    }
    if let Asked::Course((u, v)) = &case.asked {
        bytes.extend([u.len() as u8, (u.len() + v.len()) as u8]);
        let mut letters = [&u[..], v].concat();
        letters.resize(2 * MOST_LETTERS, 0);
        bytes.extend(letters);
    }
    bytes
}

fn printed(case: &Case) -> String {
    match &case.asked {
        Asked::Verdict => verdict_line(&Facts::of(&case.given)),
        Asked::Course((u, v)) => {
            let (number, judgement) = match judged(&case.given, u, v) {
                Ok(true) => (0, 1),
                Ok(false) => (0, 2),
                Err(number) => (number, 0),
            };
            format!("{} {}", number, judgement)
        }
        Asked::Opposite => opposite_line(&Facts::with_opposite(&case.given)),
    }
}

/// The verdict is printed behind the counts of the tables.
fn verdict_line(facts: &Facts) -> String {
    let mut expected = facts.verdict(&[&TABLES[..], &[WORDS]].concat());
    expected.fields[1..4].rotate_left(1);
    line(&[WORDS], &expected)
}

fn opposite_line(facts: &Facts) -> String {
    let own = [LIMIT; 4];
    line(&own, &facts.opposite(&[&TABLES[..], &own].concat()))
}

/// The answer, and a sum of the slices behind the tables, which are so long.
fn line(lengths: &[usize], expected: &Expected) -> String {
    let mut sum = 0;
    for (length, begins) in lengths.iter().zip(&expected.begins[TABLES.len()..]) {
        let past = std::iter::repeat(&BEFORE).take(length - begins.len());
        sum = begins.iter().chain(past).fold(sum, |sum, &x| mix(sum, x));
    }
    let numbers = expected.fields.iter().chain([&sum]);
    let words: Vec<String> = numbers.map(|x| x.to_string()).collect();
    words.join(" ")
}

/// Sixteen bits go into the sum.
fn mix(sum: u64, x: u64) -> u64 {
    (sum * 65_599 + (x & 0xFFFF)) % 4_294_967_291
}

/// Every number that can come with memory of full size, both verdicts and both judgements, words of 50 letters, 256 sets, 2,047 profiles and
/// 2,048, and opposites with one state, with thousands and with as many arrows as the limit.
fn assert_wide(cases: &[Case], lines: &[String]) {
    let words = |line: &String| {
        line.split(' ')
            .map(|word| word.parse().unwrap_or(0))
            .collect()
    };
    let (mut verdicts, mut opposites) = (vec![], vec![]);
    let mut courses = vec![];
    for (case, told) in cases.iter().zip(lines.iter().map(words)) {
        let told: Vec<u64> = told;
        match case.asked {
            Asked::Verdict => verdicts.push(told),
            Asked::Course(_) => courses.push(told),
            Asked::Opposite => opposites.push(told),
        }
    }
    for number in [0, 1, 2, 3, 5] {
        assert!(verdicts.iter().any(|told| told[0] == number));
    }
    for number in [0, 1, 2, 3, 5, 7] {
        assert!(opposites.iter().any(|told| told[0] == number));
    }
    let refused = [1, 2, 3, 9, 10].map(|number| vec![number, 0]);
    for told in refused.into_iter().chain([vec![0, 1], vec![0, 2]]) {
        assert!(courses.contains(&told));
    }
    assert!(verdicts.iter().any(|told| told[3] == 1 && told[1] > 8));
    assert!(verdicts.iter().any(|told| told[4] == 50 && told[5] == 50));
    assert!(verdicts.iter().any(|told| told[3] == 2 && told[1] == 256));
    assert!(verdicts.iter().any(|told| told[..3] == [0, 256, 2_041]));
    for profiles in [2_047, 2_048] {
        assert!(verdicts
            .iter()
            .any(|told| told[0] == 0 && told[2] == profiles));
    }
    assert!(opposites.iter().any(|told| told[0] == 0 && told[3] == 1));
    assert!(opposites.iter().any(|told| told[3] > 10_000));
    assert!(opposites.iter().any(|told| told[4] == 65_535));
}

fn cases() -> Vec<Case> {
    let random = &mut Random::new(SEED);
    let mut cases = verdicts(random);
    cases.extend(courses(random));
    cases.extend(opposites(random));
    cases
}

fn asking(given: Given, asked: Asked) -> Case {
    Case { given, asked }
}

fn verdicts(random: &mut Random) -> Vec<Case> {
    let mut all: Vec<Given> = small().into_iter().map(plain).collect();
    all.extend(edges());
    all.extend(named_missing());
    all.extend((0..30).map(|_| plain(random.model())));
    all.extend((0..20).map(|_| plain(random.model_up_to(8, 16))));
    all.extend((0..20).map(|_| {
        let model = random.model_up_to(8, 16);
        damaged(random, model)
    }));
    // A model with very many profiles costs as much as hundreds of others.
    all.retain(|given| !given.has_more_profiles(MANY));
    all.extend(large().into_iter().map(plain));
    let asked = |given| asking(given, Asked::Verdict);
    all.into_iter().map(asked).collect()
}

/// Some short courses of the small models, courses that go round often, some at every edge, and random models with words of many lengths.
fn courses(random: &mut Random) -> Vec<Case> {
    let mut all = Vec::new();
    for given in small().into_iter().map(plain) {
        let courses = short_courses(given.model.k);
        let step = courses.len() / 20 + 1;
        all.extend(judging(&given, courses.into_iter().step_by(step)));
    }
    for given in rings().into_iter().map(plain) {
        let words = words_up_to(1, 9).into_iter();
        all.extend(judging(&given, words.map(|u| (u, vec![0]))));
    }
    for given in edges() {
        let courses = edge_courses(given.k.clamp(1, 200) as u8);
        let step = if given.refusal() == 0 { 2 } else { 20 };
        all.extend(judging(&given, courses.into_iter().step_by(step)));
    }
    for round in 0..10 {
        let model = match round % 3 {
            0 => random.model_up_to(8, 16),
            _ => random.model(),
        };
        let courses = of_every_length(random, model.k).into_iter();
        all.extend(judging(&plain(model), courses.skip(round).step_by(5)));
    }
    all
}

fn judging(given: &Given, courses: impl Iterator<Item = Course>) -> Vec<Case> {
    courses
        .map(|(u, v)| {
            let both = u.len() + v.len();
            assert!(
                both <= 2 * MOST_LETTERS,
                "words with more letters than are read"
            );
            asking(given.clone(), Asked::Course((u, v)))
        })
        .collect()
}

/// Of the small models, of some random ones of every size, at the limits, and of models that are refused.
fn opposites(random: &mut Random) -> Vec<Case> {
    let mut all: Vec<Given> = small().into_iter().map(plain).collect();
    all.extend(edges().into_iter().step_by(3));
    all.extend(
        of_every_size(random, [3, 3, 3, 2, 1, 1])
            .into_iter()
            .map(plain),
    );
    all.push(plain(near_the_limits()));
    all.extend(at_the_limit().map(plain));
    all.extend(large().into_iter().skip(2).take(2).map(plain));
    let asked = |given| asking(given, Asked::Opposite);
    all.into_iter().map(asked).collect()
}
