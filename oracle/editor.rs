//! What the C editor must print: the hand-worked models, one whose u and v differ, C at the edges of what is refused, C's tables, opposites,
//! files and courses.

use crate::course::{accepts, letters};
use crate::file::{bytes_of, read};
use crate::model::{bit, hand_worked, named, Model, Verdict};
use crate::opposite::Opposite;
use crate::tables::{Entry, Tables, MOST_PROFILES, MOST_SETS};

const MOST_WORDS: usize = 2_304;
/// What stands in C's slices before the call.
const BEFORE: u64 = 9;
/// What stands in the slice of arrows before a file is read, and how long it is.
const UNTOUCHED: u64 = 77;
const ARROWS: usize = 4;

pub fn print() -> i32 {
    for row in hand_worked() {
        println!("{}: {}", row.name, verdict(&row.model));
    }
    let differing = Model {
        n: 1,
        k: 2,
        start: 1,
        home: 1,
        arrows: vec![bit(0, 0), 0],
    };
    println!("u and v that differ: {}", verdict(&differing));
    print_edges();
    println!("C: {}", verdict(&named("C")));
    print_tables(&named("C"));
    print_opposites();
    print_files();
    print_courses();
    0
}

fn verdict(model: &Model) -> String {
    let tables = Tables::close(model, None, None);
    let verdict = match tables.verdict() {
        None => format!("refused {}", tables.refusal()),
        Some(Verdict::Covered) => "covered".to_string(),
        Some(Verdict::Uncovered((u, v))) => {
            format!("uncovered, u{}, v{}", letters(&u), letters(&v))
        }
    };
    let (sets, profiles) = (tables.sets.entries.len(), tables.profiles.entries.len());
    format!("sets {}, profiles {}, {}", sets, profiles, verdict)
}

fn print_edges() {
    let c = || named("C");
    let (s, p, w) = (MOST_SETS, MOST_PROFILES, MOST_WORDS);
    let few = "with 3 events and 2 numbers of arrows";
    let missing = "with a missing start state";
    print_number("without states", Model { n: 0, ..c() }, s, p, w);
    print_number("with 9 states", Model { n: 9, ..c() }, s, p, w);
    print_number("without events", Model { k: 0, ..c() }, s, p, w);
    print_number("with 17 events", Model { k: 17, ..c() }, s, p, w);
    print_number(few, Model { k: 3, ..c() }, s, p, w);
    print_number(missing, Model { start: 4, ..c() }, s, p, w);
    print_number("with room for 1 set", c(), 1, p, w);
    print_number("with room for 2 profiles", c(), s, 2, w);
    print_number("without word memory", c(), s, p, 0);
}

fn print_number(what: &str, model: Model, sets: usize, profiles: usize, words: usize) {
    let mut counts = (model.refusal(), 0, 0);
    if counts.0 == 0 {
        let tables = Tables::close(&model, Some(sets), Some(profiles));
        let (sets, profiles) = (tables.sets.entries.len(), tables.profiles.entries.len());
        let number = match tables.verdict() {
            None => tables.refusal(),
            Some(Verdict::Uncovered((u, v))) if u.len() + v.len() > words => 6,
            Some(_) => 0,
        };
        counts = (number, sets, profiles);
    }
    let (number, sets, profiles) = counts;
    println!("C {what}: number {number}, sets {sets}, profiles {profiles}");
}

/// The entries, and the place past the last one.
fn print_tables(model: &Model) {
    let tables = Tables::close(model, None, None);
    let sets = tables.sets.entries.iter();
    print_rows("set", sets.map(|set| row(vec![set.value.into()], set)));
    let profiles = tables.profiles.entries.iter().map(|profile| {
        let value = vec![profile.value.arrows(), profile.value.marks()];
        row(value, profile)
    });
    print_rows("profile", profiles);
}

fn row<V>(mut value: Vec<u64>, entry: &Entry<V>) -> Vec<u64> {
    value.extend([entry.predecessor as u64, entry.event.into()]);
    value
}

fn print_rows(name: &str, rows: impl Iterator<Item = Vec<u64>>) {
    let mut rows: Vec<Vec<u64>> = rows.collect();
    rows.push(vec![BEFORE; rows[0].len()]);
    for (number, row) in rows.iter().enumerate() {
        let columns: String = row.iter().map(|x| format!(" {}", x)).collect();
        println!("C's {} {}:{}", name, number, columns);
    }
}

/// The opposites of C, D and H, and C's with just enough room and with each slice one place too short.
fn print_opposites() {
    for name in ["C", "D", "H"] {
        let opposite = Opposite::build(&Tables::close(&named(name), None, None));
        let size = opposite.size();
        let numbered = opposite.accepting.iter().enumerate();
        let accepting: String = numbered
            .filter(|(_, &accepting)| accepting)
            .map(|(number, _)| format!(" {}", number))
            .collect();
        println!(
            "{}'s opposite: number 0, states {}, arrows {}, accepting{}",
            name, size.states, size.arrows, accepting
        );
        for (from, event, to) in opposite.arrows {
            println!("{} {} {}", from, event, to);
        }
    }
    let none = Model { n: 0, ..named("C") };
    println!(
        "C without states has no opposite: number {}",
        none.refusal()
    );
    let tables = Tables::close(&named("C"), None, None);
    let (sets, profiles) = (tables.sets.entries.len(), tables.profiles.entries.len());
    let size = Opposite::build(&tables).size();
    let rooms = [
        ("just enough room", [16, 16, 16], 6),
        ("one place too few for where arrows start", [15, 16, 16], 6),
        ("one place too few for events", [16, 15, 16], 6),
        ("one place too few for where arrows lead", [16, 16, 15], 6),
        ("one place too few for flags", [16, 16, 16], 5),
    ];
    for (what, arrow_rooms, state_room) in rooms {
        let fits = arrow_rooms.iter().all(|&room| size.arrows <= room) && size.states <= state_room;
        let (number, states, arrows) = match fits {
            true => (0, size.states, size.arrows),
            false => (7, 0, 0),
        };
        println!(
            "C's opposite with {}: number {}, sets {}, profiles {}, states {}, arrows {}",
            what, number, sets, profiles, states, arrows
        );
    }
}

/// C's file whole and with faults, each with room for so many arrow numbers.
fn print_files() {
    let whole = bytes_of(&named("C"));
    let (mut nine, mut third) = (whole.clone(), whole.clone());
    nine[3] = 9;
    third[20] = 4;
    let cut = whole[..whole.len() - 3].to_vec();
    let more = [&whole[..], &[0]].concat();
    print_file("C's file", &whole, 4);
    print_file("C's file with just enough room", &whole, 2);
    print_file("C's file with room for 1 number", &whole, 1);
    print_file("C's file with 9 states", &nine, 4);
    print_file("C's file with an arrow to a missing state", &third, 4);
    print_file("C's file without its end", &cut, 4);
    print_file("C's file and a byte more", &more, 4);
    print_file("an empty file", &[], 4);
}

fn print_file(what: &str, file: &[u8], room: usize) {
    let mut places = [UNTOUCHED; ARROWS];
    let numbers = match read(file, room) {
        Err(fault) => [fault.number.into(), fault.offset, 0, 0, 0, 0],
        Ok(model) => {
            places[..model.k].copy_from_slice(&model.arrows);
            let masks = [model.start.into(), model.home.into()];
            [0, 0, model.n, model.k, masks[0], masks[1]]
        }
    };
    let [number, offset, n, k, start, home] = numbers;
    let arrows: String = places.iter().map(|x| format!(" {}", x)).collect();
    println!("{what}: number {number}, offset {offset}, n {n}, k {k}, start {start}, home {home}, arrows{arrows}");
}

fn print_courses() {
    let courses: [(&[u8], &[u8]); 8] = [
        (&[], &[0]),
        (&[], &[1]),
        (&[0], &[1]),
        (&[1, 1], &[1, 1, 0]),
        (&[0], &[]),
        (&[2], &[]),
        (&[2], &[0]),
        (&[], &[0, 2]),
    ];
    for (u, v) in courses {
        print_course("C", named("C"), u, v);
    }
    let (u, v) = courses[4];
    let few = "C with 3 events and 2 numbers of arrows";
    print_course("C without states", Model { n: 0, ..named("C") }, u, v);
    print_course(few, Model { k: 3, ..named("C") }, u, v);
}

/// The judgement is 0 for none, 1 for accepted, 2 for not accepted.
fn print_course(what: &str, model: Model, u: &[u8], v: &[u8]) {
    let unknown = |&letter: &u8| usize::from(letter) >= model.k;
    let (number, judgement) = match model.refusal() {
        0 if v.is_empty() => (10, 0),
        0 if u.iter().chain(v).any(unknown) => (9, 0),
        0 if accepts(&model.machine(), u, v) => (0, 1),
        0 => (0, 2),
        number => (number, 0),
    };
    let (u, v) = (letters(u), letters(v));
    println!("{what}, u{u}, v{v}: number {number}, judgement {judgement}");
}
