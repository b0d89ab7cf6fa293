//! The cases for the library's C interface, group by group: the small ones first, so that a fault is found soon.

use crate::asked::Reading;
use crate::course::Course;
use crate::courses::{edge_courses, of_every_length, short_courses, words_up_to};
use crate::damage::{
    beyond, c, changed, cut, largest, lengthened, noise, reordered, scratched, shifted, valid, File,
};
use crate::file::bytes_of;
use crate::model::{named, Model};
use crate::models::{
    at_the_limit, damaged, edges, large, named_missing, near_the_limits, of_every_size, plain,
    rings, small, Given, MANY,
};
use crate::random::Random;
use crate::rooms::LONGEST;

/// What one process of the driver is asked.
pub enum Work {
    Verdict(Given),
    Opposite(Given),
    Courses(Given, Vec<Course>),
    Files(Vec<Reading>),
}

pub type Group = (&'static str, fn() -> Vec<Work>);

/// How many files one process is asked about.
const FILES_AT_ONCE: usize = 100;

/// So many of the first groups are quickly done.
pub const SMALL_GROUPS: usize = 9;

pub const GROUPS: [Group; 25] = [
    ("courses, small models and rings", small_courses),
    ("files, C's", || files(of_c())),
    ("verdict, small models", || verdicts(smallest())),
    ("opposite, small models", || opposites(smallest())),
    ("courses, every edge", edge_works),
    ("courses, more letters than 16 bits count", longest_courses),
    ("files, very long", || files(very_long())),
    ("verdict, C at every edge", || verdicts(edges())),
    ("opposite, C at every edge", || opposites(edges())),
    ("verdict, large models", || verdicts(plainly(large()))),
    ("opposite, at the limits", || opposites(at_limits())),
    ("verdict, a missing state", || verdicts(named_missing())),
    ("opposite, a missing state", || opposites(named_missing())),
    ("files, a largest one", || files(of_largest())),
    ("files, of every n and k", || files(of_every_model())),
    ("files, random damage", || files(of_random())),
    ("files, damaged, in a very long room", || {
        files(very_long_room())
    }),
    ("courses, random models", random_courses),
    ("courses, damaged models", damaged_courses),
    ("courses, long ones", long_courses),
    ("verdict, random models", || verdicts(random_models(4, 400))),
    ("verdict, damaged models", || {
        verdicts(damaged_models(8, 300))
    }),
    ("opposite, random models", || {
        opposites(random_models(7, 120))
    }),
    ("opposite, damaged models", || {
        opposites(damaged_models(9, 100))
    }),
    ("opposite, of every size", || opposites(every_size())),
];

fn plainly(models: Vec<Model>) -> Vec<Given> {
    models.into_iter().map(plain).collect()
}

fn smallest() -> Vec<Given> {
    plainly(small())
}

fn verdicts(all: Vec<Given>) -> Vec<Work> {
    all.into_iter().map(Work::Verdict).collect()
}

fn opposites(all: Vec<Given>) -> Vec<Work> {
    all.into_iter().map(Work::Opposite).collect()
}

fn files(readings: Vec<Reading>) -> Vec<Work> {
    let parts = readings.chunks(FILES_AT_ONCE);
    parts.map(|part| Work::Files(part.to_vec())).collect()
}

/// A model with very many profiles costs as much as hundreds of others.
fn without_many(mut all: Vec<Given>) -> Vec<Given> {
    all.retain(|given| !given.has_more_profiles(MANY));
    all
}

/// Mostly small ones, and every fourth of any size.
fn any_model(random: &mut Random, number: usize) -> Model {
    match number % 4 {
        0 => random.model_up_to(8, 16),
        _ => random.model(),
    }
}

fn random_models(seed: u64, count: usize) -> Vec<Given> {
    let random = &mut Random::new(seed);
    let models = (0..count).map(|number| plain(any_model(random, number)));
    without_many(models.collect())
}

fn damaged_models(seed: u64, count: usize) -> Vec<Given> {
    let random = &mut Random::new(seed);
    let mut one = |number: usize| {
        let model = any_model(random, number * 2);
        damaged(random, model)
    };
    without_many((0..count).map(&mut one).collect())
}

/// The last two have more profiles than the limit.
fn at_limits() -> Vec<Given> {
    let mut models = at_the_limit().to_vec();
    models.push(near_the_limits());
    models.extend(large().into_iter().skip(2).take(2));
    plainly(models)
}

fn every_size() -> Vec<Given> {
    let random = &mut Random::new(10);
    plainly(of_every_size(random, [16, 16, 16, 12, 6, 6]))
}

/// All short courses of the small models, and courses that go round often.
fn small_courses() -> Vec<Work> {
    let mut works: Vec<Work> = smallest()
        .into_iter()
        .map(|given| Work::Courses(given.clone(), short_courses(given.model.k)))
        .collect();
    works.extend(rings().into_iter().map(|model| {
        let words = words_up_to(1, 20);
        let rounds = [1, 2, 5].map(|length| vec![0; length]);
        let with = |v: &Vec<u8>| {
            let courses = words.iter().map(|u| (u.clone(), v.clone()));
            courses.collect::<Vec<Course>>()
        };
        Work::Courses(plain(model), rounds.iter().flat_map(with).collect())
    }));
    works
}

fn edge_works() -> Vec<Work> {
    let all = edges().into_iter().chain(named_missing());
    all.map(|given| {
        let courses = edge_courses(given.k.clamp(1, 200) as u8);
        Work::Courses(given, courses)
    })
    .collect()
}

fn random_courses() -> Vec<Work> {
    let random = &mut Random::new(5);
    let mut one = |number: usize| {
        let model = any_model(random, number);
        let mut courses = of_every_length(random, model.k);
        courses.extend((0..20).map(|_| random.course(model.k, 6)));
        Work::Courses(plain(model), courses)
    };
    (0..500).map(&mut one).collect()
}

/// With letters up to k, and sometimes without a round.
fn damaged_courses() -> Vec<Work> {
    let random = &mut Random::new(11);
    let mut one = |_| {
        let model = random.model_up_to(8, 16);
        let k = model.k;
        let mut courses: Vec<Course> = (0..18).map(|_| random.course(k + 1, 6)).collect();
        courses.push((random.word(k, 3), vec![]));
        courses.push((random.word(k + 1, 3), vec![]));
        Work::Courses(damaged(random, model), courses)
    };
    (0..200).map(&mut one).collect()
}

/// Hundreds and thousands of letters in u, in v and in both; some with an unknown letter at the very end.
fn long_courses() -> Vec<Work> {
    let random = &mut Random::new(12);
    let mut one = |_| {
        let model = random.model_up_to(8, 16);
        let k = model.k;
        let lengths = [(300, 1), (1, 300), (700, 900), (3_000, 2), (0, 4_000)];
        let mut courses: Vec<Course> = lengths
            .map(|(u, v)| (random.word(k, u), random.word(k, v)))
            .into();
        let (u, v) = courses[2].clone();
        courses.push(([&u[..], &[k as u8]].concat(), v.clone()));
        courses.push((u, [&v[..], &[k as u8]].concat()));
        Work::Courses(plain(model), courses)
    };
    (0..60).map(&mut one).collect()
}

/// C accepts nearly every random course, and H nearly none.
fn longest_courses() -> Vec<Work> {
    let random = &mut Random::new(14);
    let lengths = [
        (LONGEST, 1),
        (0, LONGEST),
        (LONGEST, LONGEST),
        (65_535, 65_536),
        (LONGEST, 40),
    ];
    let mut works = Vec::new();
    for model in [named("C"), named("H"), random.model_up_to(8, 16)] {
        let course = |(u, v)| (random.word(model.k, u), random.word(model.k, v));
        let courses = lengths.map(course).into();
        works.push(Work::Courses(plain(model), courses));
    }
    works
}

/// Each file with each of these rooms for arrow numbers.
fn lent(files: Vec<File>, rooms: &[usize]) -> Vec<Reading> {
    let with = |file: &File| {
        let each = rooms.iter().map(|&room| Reading {
            file: file.clone(),
            room,
        });
        each.collect::<Vec<Reading>>()
    };
    files.iter().flat_map(with).collect()
}

/// Damaged in every way at every place.
fn everywhere(file: &File) -> Vec<File> {
    let damages = [changed, cut, lengthened, shifted, reordered];
    damages.iter().flat_map(|damage| damage(file)).collect()
}

fn of_c() -> Vec<Reading> {
    let mut readings = lent(everywhere(&c()), &[0, 1, 2, 3, 16, 17, 20]);
    readings.extend(lent(vec![c()], &[0, 1, 2, 3, 16, 17, 20, LONGEST]));
    readings
}

fn of_largest() -> Vec<Reading> {
    let mut readings = lent(everywhere(&largest()), &[0, 1, 15, 16, 17, 20]);
    let rooms: Vec<usize> = (0..=20).chain([LONGEST]).collect();
    readings.extend(lent(vec![largest()], &rooms));
    readings
}

fn of_every_model() -> Vec<Reading> {
    let random = &mut Random::new(66);
    let mut readings = Vec::new();
    for model in valid(random, 3) {
        let k = model.k;
        let rooms = [0, 1, k - 1, k, k + 1, 16, 17, 20];
        readings.extend(lent(vec![bytes_of(&model)], &rooms));
    }
    for model in valid(random, 1) {
        readings.extend(lent(vec![bytes_of(&model)], &[LONGEST]));
    }
    readings
}

fn of_random() -> Vec<Reading> {
    let random = &mut Random::new(67);
    let mut files = scratched(random, 1_000);
    files.extend(noise(random, 1_000));
    for _ in 0..3 {
        files.extend(beyond(random));
    }
    let mut readings = lent(files.clone(), &[16]);
    for file in files {
        let room = random.below(21);
        readings.push(Reading { file, room });
    }
    readings
}

/// More bytes behind the end than 16 bits can count, and nothing but bytes of one kind.
fn very_long() -> Vec<Reading> {
    let mut files = Vec::new();
    for length in [65_000, 65_535, 65_536, LONGEST, 200_000] {
        for file in [c(), largest()] {
            files.push([file, vec![0; length]].concat());
        }
        files.extend([0, 1, 0x7F, 0xFF].map(|byte| vec![byte; length]));
    }
    lent(files, &[0, 2, 16, LONGEST])
}

fn very_long_room() -> Vec<Reading> {
    let mut files = everywhere(&c());
    files.extend(everywhere(&largest()).into_iter().step_by(7));
    lent(files, &[LONGEST])
}
