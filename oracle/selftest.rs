//! The self-test: each property says what it tried, or what failed and on which model and course.

use crate::course::{accepts, show, Course};
use crate::damage::File;
use crate::facts::Facts;
use crate::file::{bytes_of, read, Fault};
use crate::model::{bit, hand_worked, named, show_arrows, Model, Verdict};
use crate::models::plain;
use crate::opposite::{counted, Opposite, Size};
use crate::paths;
use crate::profile::Profile;
use crate::program::printed;
use crate::random::Random;
use crate::straight::Lent;
use crate::tables::{Entry, Table, Tables};
use std::borrow::Cow;
use std::collections::HashSet;
use std::fmt::{self, Debug};
use std::hash::Hash;
use std::panic::{catch_unwind, AssertUnwindSafe};

type Outcome = Result<String, String>;
type Property = fn() -> Outcome;

const PROPERTIES: [(&str, Property); 13] = [
    ("known courses", known_courses),
    ("search against meaning", search_against_meaning),
    ("hand-worked models", hand_worked_models),
    ("hand-worked opposites", hand_worked_opposites),
    ("edges", edges),
    ("model files", model_files),
    ("returned courses are rejected", returned_courses),
    ("covered models accept", covered_models),
    ("model and opposite never agree", never_agree),
    ("tables against paths", tables_against_paths),
    ("counts of the opposite", counts_of_opposite),
    ("straight look-up against hash maps", straight_look_up),
    ("less room, the same beginning", less_room),
];

pub fn run() -> i32 {
    let mut status = 0;
    for (name, property) in PROPERTIES {
        match outcome(property) {
            Ok(tried) => println!("ok {}: {}", name, tried),
            Err(fault) => {
                println!("FAILED {}: {}", name, fault);
                status = 1;
            }
        }
    }
    status
}

/// A panic is one property's failure, so that the others still run.
fn outcome(property: Property) -> Outcome {
    catch_unwind(property).unwrap_or_else(|_| Err("a panic".to_string()))
}

/// A panic is told with the model that brought it about.
fn guarded<T>(model: &Model, step: impl FnOnce() -> Result<T, String>) -> Result<T, String> {
    let caught = catch_unwind(AssertUnwindSafe(step));
    caught.unwrap_or_else(|_| Err(format!("a panic on {}", model)))
}

fn expect<T: PartialEq + Debug>(what: &str, got: T, expected: T) -> Result<(), String> {
    if got == expected {
        return Ok(());
    }
    Err(format!("{}: got {:?}, expected {:?}", what, got, expected))
}

/// Tells the first difference alone, because whole tables are too long to read.
fn expect_list<T: PartialEq + Debug>(what: &str, got: &[T], expected: &[T]) -> Result<(), String> {
    let longer = got.len().max(expected.len());
    for number in 0..longer {
        let place = format!("{}, number {}", what, number);
        expect(&place, got.get(number), expected.get(number))?;
    }
    Ok(())
}

/// A property that tried too little has shown nothing.
fn at_least(least: usize, seen: usize, what: &str) -> Result<(), String> {
    if seen >= least {
        return Ok(());
    }
    Err(format!("only {} {}, fewer than {}", seen, what, least))
}

/// Worked by hand: C is home after each 0, and H stays home only as long as nothing but 1 comes.
const ACCEPTED: [(&str, &[u8], &[u8]); 13] = [
    ("A", &[], &[0]),
    ("A", &[0, 0], &[0, 0, 0]),
    ("C", &[], &[0]),
    ("C", &[], &[0, 1]),
    ("C", &[1, 1], &[1, 1, 0]),
    ("E", &[], &[0]),
    ("E", &[0], &[0]),
    ("E", &[], &[0, 0, 0]),
    ("F", &[], &[0]),
    ("F", &[0], &[0, 0]),
    ("H", &[], &[1]),
    ("H", &[1], &[1]),
    ("H", &[0, 1, 0], &[1, 1]),
];

/// Worked by hand: B has no home, D no arrow, G no start, and C and H leave home for ever.
const REJECTED: [(&str, &[u8], &[u8]); 15] = [
    ("B", &[], &[0]),
    ("B", &[0], &[0, 0]),
    ("C", &[], &[1]),
    ("C", &[0], &[1]),
    ("C", &[0, 0], &[1, 1]),
    ("D", &[], &[0]),
    ("D", &[0], &[0]),
    ("D", &[], &[0, 0]),
    ("G", &[], &[0]),
    ("G", &[0], &[0]),
    ("H", &[], &[0]),
    ("H", &[1], &[0]),
    ("H", &[], &[0, 1]),
    ("H", &[], &[1, 0]),
    ("H", &[1, 1], &[1, 1, 0]),
];

fn known_courses() -> Outcome {
    let (yes, no) = (ACCEPTED.len(), REJECTED.len());
    for (number, (name, u, v)) in ACCEPTED.iter().chain(&REJECTED).enumerate() {
        let what = format!("{} accepts {}", name, show(u, v));
        expect(&what, accepts(&named(name).machine(), u, v), number < yes)?;
    }
    Ok(format!("{} courses accepted, {} rejected", yes, no))
}

fn search_against_meaning() -> Outcome {
    let mut random = Random::new(100);
    let (mut yes, mut no) = (0, 0);
    for _ in 0..4_000 {
        let model = random.model_up_to(4, 3);
        let machine = model.machine();
        for _ in 0..4 {
            let (u, v) = random.course(model.k, 4);
            let found = accepts(&machine, &u, &v);
            let what = format!("{} accepts {}", model, show(&u, &v));
            expect(&what, found, paths::accepts(&machine, &u, &v))?;
            *(if found { &mut yes } else { &mut no }) += 1;
        }
    }
    at_least(1_000, yes, "accepted courses")?;
    at_least(1_000, no, "rejected courses")?;
    Ok(format!("{} courses accepted, {} rejected", yes, no))
}

fn hand_worked_models() -> Outcome {
    for case in hand_worked() {
        let tables = Tables::close(&case.model, None, None);
        let sets = tables.sets.entries.len();
        let profiles = tables.profiles.entries.len();
        expect(case.name, (sets, profiles), (case.sets, case.profiles))?;
        expect(case.name, tables.verdict(), Some(case.verdict))?;
    }
    let lines = "sets 2\nprofiles 3\nuncovered\nu\nv 1\n".to_string();
    expect("C's lines", printed(&bytes_of(&named("C"))), lines)?;
    Ok("A to H with counts and result, and C's five lines".to_string())
}

fn hand_worked_opposites() -> Outcome {
    #[rustfmt::skip]
    let c_arrows = [
        (0, 0, 1), (0, 0, 3), (0, 1, 0), (0, 1, 4), (1, 0, 1), (1, 1, 0), (2, 0, 3), (2, 1, 2),
        (2, 1, 4), (3, 0, 3), (3, 1, 5), (4, 0, 3), (4, 1, 2), (4, 1, 4), (5, 0, 3), (5, 1, 5),
    ];
    let c_accepting = [false, false, true, false, false, false];
    let opposite = |name: &str| {
        let model = named(name);
        let tables = Tables::close(&model, None, None);
        guarded(&model, || Ok(Opposite::build(&tables)))
    };
    let (c, d, h) = (opposite("C")?, opposite("D")?, opposite("H")?.size());
    expect_list("C's accepting states", &c.accepting, &c_accepting)?;
    expect_list("C's arrows", &c.arrows, &c_arrows)?;
    expect_list("D's accepting states", &d.accepting, &[false, true])?;
    expect_list("D's arrows", &d.arrows, &[(0, 0, 1), (1, 0, 1)])?;
    expect("H's states and arrows", (h.states, h.arrows), (10, 30))?;
    Ok("every state and arrow of C and D, the size of H".to_string())
}

fn edges() -> Outcome {
    let cases = refusal_cases();
    for (number, model) in &cases {
        expect(&format!("refusal of {}", model), model.refusal(), *number)?;
    }
    check_room(&named("C"), None, Some(2), 5)?;
    check_room(&named("C"), None, Some(3), 0)?;
    let mut rooms = 2;
    for case in hand_worked() {
        for room in 0..=case.sets {
            let number = if room < case.sets { 4 } else { 0 };
            check_room(&case.model, Some(room), None, number)?;
        }
        for room in 0..=case.profiles {
            let number = if room < case.profiles { 5 } else { 0 };
            check_room(&case.model, None, Some(room), number)?;
        }
        rooms += case.sets + case.profiles + 2;
    }
    Ok(format!(
        "{} models with their refusal, {} rooms",
        cases.len(),
        rooms
    ))
}

/// C's file as document 01 lists it.
#[rustfmt::skip]
const C_FILE: [u8; 31] = [
    0x01, 0x01, 0x00, 0x02, 0x02, 0x01, 0x00, 0x02, 0x03, 0x01, 0x00, 0x01, 0x04, 0x01, 0x00, 0x02,
    0x05, 0x03, 0x00, 0x00, 0x02, 0x02, 0x05, 0x03, 0x00, 0x01, 0x01, 0x01, 0x7F, 0x00, 0x00,
];

/// C's file, damaged in ways whose fault is worked by hand, and random models read back.
fn model_files() -> Outcome {
    expect_list("C's file", &bytes_of(&named("C")), &C_FILE)?;
    let damaged = c_changed()? + c_cut()? + c_twice_wrong()?;
    let mut random = Random::new(1_200);
    for _ in 0..1_000 {
        let model = random.model_up_to(8, 16);
        let back = read(&bytes_of(&model), model.k).map(|back| back.to_string());
        expect("a model read back", back, Ok(model.to_string()))?;
    }
    Ok(format!("{} damaged, 1000 models read back", damaged))
}

fn expect_fault(file: &[u8], room: usize, number: u8, offset: usize) -> Result<(), String> {
    let what = format!("{:02X?} with room {}", file, room);
    let found = read(file, room).map(|model| bytes_of(&model));
    expect(&what, found, Err(Fault { number, offset }))
}

fn c_with(changes: &[(usize, u8)]) -> File {
    let mut file = C_FILE.to_vec();
    changes.iter().for_each(|&(at, value)| file[at] = value);
    file
}

/// One byte changed: the place and the value, and the number and the offset it must give.
fn c_changed() -> Result<usize, String> {
    #[rustfmt::skip]
    let changes: [(usize, u8, u8, usize); 21] = [
        (0, 0x11, 8, 0), (1, 0, 8, 0), (2, 1, 8, 0), (3, 0, 1, 0), (3, 9, 1, 0), (7, 0, 1, 4), (7, 17, 1, 4),
        (7, 3, 8, 28), (8, 4, 8, 8), (11, 4, 3, 8), (15, 0x80, 3, 12), (16, 4, 8, 16), (17, 4, 8, 16),
        (18, 1, 8, 16), (19, 1, 8, 16), (21, 4, 3, 16), (25, 0, 8, 22), (27, 0xFF, 3, 22), (28, 0x7E, 8, 28),
        (29, 1, 8, 28), (30, 1, 8, 28),
    ];
    for (at, value, number, offset) in changes {
        expect_fault(&c_with(&[(at, value)]), 16, number, offset)?;
    }
    Ok(changes.len())
}

/// Cut at every length: the field that is cut or missing has the fault.
fn c_cut() -> Result<usize, String> {
    let fields = [0, 4, 8, 12, 16, 22, 28];
    for length in 0..C_FILE.len() {
        let begun = fields.iter().rev().find(|&&at| at <= length);
        let offset = *begun.expect("a field begins at 0");
        expect_fault(&C_FILE[..length], 16, 8, offset)?;
    }
    Ok(C_FILE.len())
}

/// One byte too many; two faults, of which the first decides; and too little room for k, before and after other faults.
fn c_twice_wrong() -> Result<usize, String> {
    let more = [&C_FILE[..], &[0]].concat();
    let cases: [(File, usize, u8, usize); 10] = [
        (more, 16, 8, 31),
        (c_with(&[(3, 9), (0, 2)]), 16, 8, 0),
        (c_with(&[(3, 9), (7, 17)]), 16, 1, 0),
        (c_with(&[(11, 4), (8, 4)]), 16, 8, 8),
        (c_with(&[(20, 4), (19, 1)]), 16, 8, 16),
        (c_with(&[(20, 4), (26, 4)]), 16, 3, 16),
        (c_with(&[(7, 17)]), 0, 1, 4),
        (c_with(&[]), 0, 2, 4),
        (c_with(&[]), 1, 2, 4),
        (C_FILE[..8].to_vec(), 1, 2, 4),
    ];
    for (file, room, number, offset) in &cases {
        expect_fault(file, *room, *number, *offset)?;
    }
    Ok(cases.len())
}

/// C after one change, with the number it must give.
fn refusal_cases() -> Vec<(u8, Model)> {
    let case = |number: u8, change: fn(&mut Model)| {
        let mut model = named("C");
        change(&mut model);
        (number, model)
    };
    let all_bits = |number: u8, n: usize, k: usize| {
        let arrows = vec![u64::MAX; 17];
        (
            number,
            Model {
                n,
                k,
                start: 255,
                home: 255,
                arrows,
            },
        )
    };
    vec![
        case(0, |_| ()),
        case(1, |c| c.n = 0),
        case(1, |c| c.n = 9),
        case(1, |c| c.k = 0),
        case(1, |c| c.k = 17),
        all_bits(1, 0, 2),
        all_bits(1, 9, 2),
        all_bits(1, 8, 0),
        all_bits(1, 8, 17),
        all_bits(0, 8, 1),
        all_bits(0, 8, 16),
        case(2, |c| c.k = 3),
        case(2, |c| c.arrows.truncate(1)),
        case(2, |c| c.arrows.clear()),
        case(2, |c| (c.k, c.start) = (3, 255)),
        case(3, |c| c.start |= 1 << 2),
        case(3, |c| c.start |= 1 << 7),
        case(3, |c| c.home |= 1 << 2),
        case(3, |c| c.home |= 1 << 7),
        case(3, |c| c.arrows[0] |= bit(2, 0)),
        case(3, |c| c.arrows[1] |= bit(7, 1)),
        case(3, |c| c.arrows[0] |= bit(1, 2)),
        case(3, |c| c.arrows[1] |= bit(0, 7)),
        case(3, |c| c.n = 1),
        case(0, |c| c.arrows.push(bit(2, 7))),
        case(3, |c| (c.n, c.start) = (7, 1 << 7)),
        case(0, |c| (c.n, c.start) = (8, 1 << 7)),
    ]
}

/// A cut table is the beginning of the whole one, and gives no verdict.
fn check_room(
    model: &Model,
    sets: Option<usize>,
    profiles: Option<usize>,
    number: u8,
) -> Result<(), String> {
    let what = format!("{}, rooms {:?} and {:?}", model, sets, profiles);
    let whole = Tables::close(model, None, None);
    let tables = Tables::close(model, sets, profiles);
    let mut all_sets = listed(&whole.sets, set_value);
    all_sets.truncate(sets.unwrap_or(all_sets.len()));
    let mut all_profiles = listed(&whole.profiles, profile_value);
    // No profile is sought once the sets are cut.
    let profile_room = if number == 4 { Some(0) } else { profiles };
    all_profiles.truncate(profile_room.unwrap_or(all_profiles.len()));
    expect(&what, tables.refusal(), number)?;
    expect(&what, tables.verdict().is_some(), number == 0)?;
    expect_list(&what, &listed(&tables.sets, set_value), &all_sets)?;
    let cut_profiles = listed(&tables.profiles, profile_value);
    expect_list(&what, &cut_profiles, &all_profiles)
}

/// How many models were found covered, uncovered and cut.
#[derive(Default)]
struct Seen {
    covered: usize,
    uncovered: usize,
    cut: usize,
}

impl Seen {
    fn count(&mut self, verdict: &Option<Verdict>) {
        match verdict {
            Some(Verdict::Covered) => self.covered += 1,
            Some(Verdict::Uncovered(_)) => self.uncovered += 1,
            None => self.cut += 1,
        }
    }

    fn told(&self) -> Outcome {
        at_least(1_000, self.covered, "covered models")?;
        at_least(1_000, self.uncovered, "uncovered models")?;
        let Seen {
            covered,
            uncovered,
            cut,
        } = self;
        Ok(format!(
            "{} models covered, {} uncovered, {} cut",
            covered, uncovered, cut
        ))
    }
}

fn returned_courses() -> Outcome {
    let mut random = Random::new(4);
    let (mut states, mut events) = (HashSet::new(), HashSet::new());
    let mut seen = Seen::default();
    for _ in 0..8_000 {
        let model = random.model();
        states.insert(model.n);
        events.insert(model.k);
        let verdict = Tables::close(&model, None, None).verdict();
        seen.count(&verdict);
        if let Some(Verdict::Uncovered((u, v))) = verdict {
            if v.is_empty() || accepts(&model.machine(), &u, &v) {
                return Err(format!("{} does not reject {}", model, show(&u, &v)));
            }
        }
    }
    at_least(8, states.len(), "numbers of states")?;
    at_least(16, events.len(), "numbers of events")?;
    seen.told()
}

fn covered_models() -> Outcome {
    let mut random = Random::new(5);
    let mut seen = Seen::default();
    let mut tried = 0;
    for _ in 0..8_000 {
        let model = random.model();
        let verdict = Tables::close(&model, None, None).verdict();
        seen.count(&verdict);
        if verdict == Some(Verdict::Covered) {
            tried += check_covered(&model, &mut random)?;
        }
    }
    Ok(format!("{}; {} courses accepted", seen.told()?, tried))
}

fn check_covered(model: &Model, random: &mut Random) -> Result<usize, String> {
    let machine = model.machine();
    let mut courses = Vec::new();
    if model.k <= 3 {
        courses = short_courses(model.k);
    }
    courses.extend((0..30).map(|_| random.course(model.k, 12)));
    for (u, v) in &courses {
        if !accepts(&machine, u, v) {
            return Err(format!("{} is covered but rejects {}", model, show(u, v)));
        }
    }
    Ok(courses.len())
}

fn short_courses(k: usize) -> Vec<Course> {
    let mut courses = Vec::new();
    for u in paths::words(k, 0, 2) {
        for v in paths::words(k, 1, 3) {
            courses.push((u.clone(), v));
        }
    }
    courses
}

fn never_agree() -> Outcome {
    let mut random = Random::new(6);
    let mut models: Vec<Model> = hand_worked().into_iter().map(|case| case.model).collect();
    models.extend((0..3_000).map(|_| random.model_up_to(4, 3)));
    let (mut skipped, mut yes, mut no) = (0, 0, 0);
    for model in &models {
        let tables = Tables::close(model, None, None);
        if size_within_limits(&tables).is_none() {
            skipped += 1;
            continue;
        }
        let check = || check_opposite(model, &tables, &mut random);
        let (accepted, rejected) = guarded(model, check)?;
        yes += accepted;
        no += rejected;
    }
    at_least(5_000, yes, "courses accepted by the model")?;
    at_least(5_000, no, "courses accepted by the opposite")?;
    let compared = models.len() - skipped;
    let tried = format!("{} models compared, {} skipped", compared, skipped);
    Ok(format!(
        "{}; model accepted {}, opposite {}",
        tried, yes, no
    ))
}

fn size_within_limits(tables: &Tables) -> Option<Size> {
    if tables.refusal() != 0 {
        return None;
    }
    Some(counted(tables)).filter(Size::is_within_limits)
}

/// How many courses the model accepted, and how many its opposite.
fn check_opposite(
    model: &Model,
    tables: &Tables,
    random: &mut Random,
) -> Result<(usize, usize), String> {
    let machine = model.machine();
    let opposite = Opposite::build(tables).machine();
    let mut courses: Vec<Course> = (0..12).map(|_| random.course(model.k, 6)).collect();
    if let Some(Verdict::Uncovered(course)) = tables.verdict() {
        courses.push(course);
    }
    let mut yes = 0;
    for (u, v) in &courses {
        let accepted = accepts(&machine, u, v);
        if accepts(&opposite, u, v) == accepted {
            let both = if accepted { "accept" } else { "reject" };
            let what = format!("{} and its opposite both {}", model, both);
            return Err(format!("{} {}", what, show(u, v)));
        }
        yes += usize::from(accepted);
    }
    Ok((yes, courses.len() - yes))
}

fn tables_against_paths() -> Outcome {
    let mut random = Random::new(7);
    let (mut whole, mut partly, mut cut) = (0, 0, 0);
    for _ in 0..1_000 {
        let model = random.model_up_to(4, 3);
        let tables = Tables::close(&model, None, None);
        if tables.refusal() != 0 {
            cut += 1;
        } else if check_tables(&model, &tables)? {
            whole += 1;
        } else {
            partly += 1;
        }
    }
    at_least(500, whole, "models with both tables reached whole")?;
    Ok(format!(
        "{} models reached whole, {} in part, {} cut",
        whole, partly, cut
    ))
}

/// Tells whether the words went beyond every entry of both tables.
fn check_tables(model: &Model, tables: &Tables) -> Result<bool, String> {
    let machine = model.machine();
    let longest = [0, 24, 9, 6][model.k];
    let words = paths::words(model.k, 0, longest);
    let set_of = |word: &[u8]| paths::set(&machine, word);
    let profile_of = |word: &[u8]| {
        let (arrows, marks) = paths::profile(&machine, word);
        Links(arrows, marks)
    };
    let sets = first_words(&words, set_of);
    let profiles = first_words(&words[1..], profile_of);
    let (set_name, profile_name) = (format!("{}, sets", model), format!("{}, profiles", model));
    let sets_whole = check_table(&set_name, &listed(&tables.sets, set_value), &sets, longest)?;
    let entries = listed(&tables.profiles, profile_value);
    let profiles_whole = check_table(&profile_name, &entries, &profiles, longest)?;
    check_predecessors(&set_name, &tables.sets, 0)?;
    check_predecessors(&profile_name, &tables.profiles, 1)?;
    if sets_whole && profiles_whole {
        let verdict = paths::verdict(&machine, &words_of(&sets), &words_of(&profiles));
        expect(
            &format!("{}, verdict", model),
            tables.verdict(),
            Some(verdict),
        )?;
    }
    Ok(sets_whole && profiles_whole)
}

/// A word with its value.
type Valued<W> = (Vec<u8>, W);

fn words_of<W>(list: &[Valued<W>]) -> Vec<Vec<u8>> {
    list.iter().map(|(word, _)| word.clone()).collect()
}

/// Compares as far as the words went, and tells whether they went beyond the last entry.
fn check_table<W: Copy + PartialEq + Debug>(
    what: &str,
    entries: &[Valued<W>],
    found: &[Valued<W>],
    longest: usize,
) -> Result<bool, String> {
    let within = |length: usize| entries.iter().filter(move |(word, _)| word.len() <= length);
    let reached: Vec<Valued<W>> = within(longest).cloned().collect();
    expect_list(what, &reached, found)?;
    Ok(within(longest - 1).count() == entries.len())
}

fn set_value(set: &u8) -> u8 {
    *set
}

fn profile_value(profile: &Profile) -> Links {
    Links(profile.arrows(), profile.marks())
}

/// The arrows and the marks of a profile, printed so that they can be read.
#[derive(Clone, Copy, PartialEq, Eq, Hash)]
struct Links(u64, u64);

impl Debug for Links {
    fn fmt(&self, out: &mut fmt::Formatter) -> fmt::Result {
        let (arrows, marks) = (show_arrows(self.0), show_arrows(self.1));
        write!(out, "arrows{} marks{}", arrows, marks)
    }
}

fn listed<V: Clone + Eq + Hash, W>(table: &Table<V>, value: fn(&V) -> W) -> Vec<Valued<W>> {
    let numbers = 0..table.entries.len();
    numbers
        .map(|number| (table.word(number), value(&table.entries[number].value)))
        .collect()
}

/// Each value with the first word that has it.
fn first_words<W: Copy + Eq + Hash>(
    words: &[Vec<u8>],
    value: impl Fn(&[u8]) -> W,
) -> Vec<Valued<W>> {
    let mut seen = HashSet::new();
    let valued = words.iter().map(|word| (word.clone(), value(word)));
    valued.filter(|&(_, value)| seen.insert(value)).collect()
}

/// Words of the first length come from no entry, longer ones from an earlier entry.
fn check_predecessors<V: Clone + Eq + Hash>(
    what: &str,
    table: &Table<V>,
    first_length: usize,
) -> Result<(), String> {
    for (number, entry) in table.entries.iter().enumerate() {
        let word = table.word(number);
        let came_from_none = entry.predecessor == 65_535;
        let place = format!("{}, predecessor of number {}", what, number);
        expect(&place, came_from_none, word.len() == first_length)?;
        expect(&place, came_from_none || entry.predecessor < number, true)?;
        expect(&place, entry.event, *word.last().unwrap_or(&255))?;
    }
    Ok(())
}

fn counts_of_opposite() -> Outcome {
    let mut random = Random::new(8);
    let (mut built, mut with_blocks) = (0, 0);
    for _ in 0..3_000 {
        let model = random.model_up_to(4, 3);
        let tables = Tables::close(&model, None, None);
        if let Some(size) = size_within_limits(&tables) {
            guarded(&model, || check_size(&model, &tables, size))?;
            built += 1;
            with_blocks += usize::from(size.states > tables.sets.entries.len());
        }
    }
    at_least(500, with_blocks, "opposites with a block")?;
    Ok(format!("{} opposites, {} with a block", built, with_blocks))
}

fn check_size(model: &Model, tables: &Tables, size: Size) -> Result<(), String> {
    let opposite = Opposite::build(tables);
    let sorted = opposite.arrows.windows(2).all(|pair| pair[0] < pair[1]);
    expect(&format!("{}, size", model), opposite.size(), size)?;
    expect(&format!("{}, strictly sorted", model), sorted, true)
}

/// The two ways to close share one event's profile and nothing else.
fn straight_look_up() -> Outcome {
    let mut random = Random::new(9);
    let (mut whole, mut cut) = (0, 0);
    for round in 0..600 {
        let most = if round % 20 == 0 { (8, 16) } else { (5, 3) };
        let model = random.model_up_to(most.0, most.1);
        let tables = Tables::close(&model, None, None);
        let mut lent = Lent::cleared();
        let (sets, profiles, was_cut) = lent.close(&model);
        let place = format!("{}, straight look-up", model);
        expect(&place, was_cut, tables.refusal() != 0)?;
        expect_list(&place, &lent.rows(sets, profiles), &rows(&tables))?;
        whole += usize::from(!was_cut);
        cut += usize::from(was_cut);
    }
    at_least(300, whole, "models closed whole")?;
    at_least(3, cut, "models cut")?;
    Ok(format!("{} models closed, {} cut", whole, cut))
}

fn rows(tables: &Tables) -> Vec<Vec<u64>> {
    fn row<V>(entry: &Entry<V>, mut value: Vec<u64>) -> Vec<u64> {
        value.extend([entry.predecessor as u64, entry.event.into()]);
        value
    }
    let sets = tables.sets.entries.iter();
    let profiles = tables.profiles.entries.iter();
    let of_set = |entry: &Entry<u8>| row(entry, vec![entry.value.into()]);
    let of_profile =
        |entry: &Entry<Profile>| row(entry, vec![entry.value.arrows(), entry.value.marks()]);
    sets.map(of_set).chain(profiles.map(of_profile)).collect()
}

/// What must come back in a room is cut from whole tables; closing in that room must give the same.
fn less_room() -> Outcome {
    let mut random = Random::new(15);
    let mut numbers = [0; 6];
    for _ in 0..1_500 {
        let model = random.model_up_to(5, 3);
        let facts = Facts::of(&plain(model.clone()));
        let (sets, profiles) = (
            random.below(facts.sets() + 3),
            random.below(facts.profiles() + 5),
        );
        let lengths = [vec![sets; 3], vec![profiles; 4]].concat();
        let closed = facts.closed(&lengths);
        let tables = Tables::close(&model, Some(sets), Some(profiles));
        let place = format!("{}, rooms {} and {}", model, sets, profiles);
        expect(&place, closed.number, tables.refusal())?;
        let columns = facts.entered(&closed);
        let row = |columns: &[Cow<[u64]>], i: usize| columns.iter().map(|c| c[i]).collect();
        let mut got: Vec<Vec<u64>> = (0..closed.sets).map(|i| row(&columns[..3], i)).collect();
        got.extend((0..closed.profiles).map(|i| row(&columns[3..], i)));
        expect_list(&place, &got, &rows(&tables))?;
        numbers[usize::from(closed.number)] += 1;
    }
    for number in [0, 4, 5] {
        at_least(50, numbers[number], "rooms of each answer")?;
    }
    let [whole, _, _, _, few_sets, few_profiles] = numbers;
    Ok(format!(
        "{} models closed whole, {} with fewer sets, {} with fewer profiles",
        whole, few_sets, few_profiles
    ))
}
