//! Model files, whole and damaged, for the reader and for the program.

use crate::file::bytes_of;
use crate::model::{hand_worked, named, own_models, Model, MOST_EVENTS, MOST_STATES};
use crate::random::Random;

pub type File = Vec<u8>;

/// The hand-worked models, our own, and some for every n and k.
pub fn valid(random: &mut Random, of_each_size: usize) -> Vec<Model> {
    let mut models: Vec<Model> = hand_worked().into_iter().map(|row| row.model).collect();
    models.extend(own_models());
    for n in 1..=MOST_STATES {
        for k in 1..=MOST_EVENTS {
            models.extend((0..of_each_size).map(|_| random.model_of(n, k)));
        }
    }
    models
}

pub fn c() -> File {
    bytes_of(&named("C"))
}

/// 8 states and 16 events, and few profiles, also after a change: each event leads from one state only.
pub fn largest() -> File {
    let arrows = |event: usize| {
        let from = event % MOST_STATES;
        let to = 1 << (event + 1) % MOST_STATES | 1 << (5 * event + 2) % MOST_STATES;
        to << (8 * from)
    };
    let file = bytes_of(&Model {
        n: MOST_STATES,
        k: MOST_EVENTS,
        start: 0x81,
        home: 0x7E,
        arrows: (0..MOST_EVENTS).map(arrows).collect(),
    });
    assert_eq!(file.len(), 211);
    file
}

/// Every byte changed, to several values each.
pub fn changed(file: &File) -> Vec<File> {
    let mut files = Vec::new();
    for at in 0..file.len() {
        let old = file[at];
        let mut values = vec![
            0,
            1,
            0xFF,
            old ^ 0x80,
            old.wrapping_add(1),
            old.wrapping_sub(1),
        ];
        values.sort();
        values.dedup();
        for value in values.into_iter().filter(|&value| value != old) {
            let mut other = file.clone();
            other[at] = value;
            files.push(other);
        }
    }
    files
}

/// Cut at every length.
pub fn cut(file: &File) -> Vec<File> {
    (0..file.len())
        .map(|length| file[..length].to_vec())
        .collect()
}

/// Bytes behind the end: one, a second end field, the file again, and so many that the whole is longer than any valid file.
pub fn lengthened(file: &File) -> Vec<File> {
    let end = vec![0x7F, 0, 0];
    let mut more = vec![vec![0], vec![1], vec![0x7F], vec![0xFF], end, file.clone()];
    more.extend([212 - file.len(), 213 - file.len(), 300, 70_000].map(|count| vec![0; count]));
    more.iter()
        .map(|bytes| [&file[..], bytes].concat())
        .collect()
}

/// A byte left out, and a byte twice, at every place.
pub fn shifted(file: &File) -> Vec<File> {
    let without = |at: usize| [&file[..at], &file[at + 1..]].concat();
    let doubled = |at: usize| [&file[..=at], &file[at..]].concat();
    (0..file.len())
        .flat_map(|at| [without(at), doubled(at)])
        .collect()
}

/// Files of models with up to three bytes changed.
pub fn scratched(random: &mut Random, count: usize) -> Vec<File> {
    let scratch = |_| {
        let mut file = bytes_of(&random.model_up_to(MOST_STATES, MOST_EVENTS));
        for _ in 0..=random.below(3) {
            let at = random.below(file.len());
            file[at] = random.below(256) as u8;
        }
        file
    };
    (0..count).map(scratch).collect()
}

/// Bytes without any form, and behind a right beginning.
pub fn noise(random: &mut Random, count: usize) -> Vec<File> {
    let some = |_| {
        let whole = bytes_of(&random.model_up_to(MOST_STATES, MOST_EVENTS));
        let mut file = whole[..random.below(whole.len())].to_vec();
        let length = random.below(300);
        file.extend((0..length).map(|_| random.below(256) as u8));
        file
    };
    (0..count).map(some).collect()
}

/// The fields of a file that has its form, one by one.
fn fields(file: &File) -> Vec<File> {
    let mut fields = Vec::new();
    let mut at = 0;
    while at < file.len() {
        let next = at + 3 + usize::from(file[at + 1]);
        fields.push(file[at..next].to_vec());
        at = next;
    }
    fields
}

/// Each field left out, each twice, and each in the place of the one behind it.
pub fn reordered(file: &File) -> Vec<File> {
    let fields = fields(file);
    let mut files = Vec::new();
    for at in 0..fields.len() {
        let (before, after) = (fields[..at].concat(), fields[at + 1..].concat());
        files.push([&before[..], &after].concat());
        files.push([&before[..], &fields[at], &fields[at], &after].concat());
        if at + 1 < fields.len() {
            let mut swapped = fields.clone();
            swapped.swap(at, at + 1);
            files.push(swapped.concat());
        }
    }
    files
}

/// For each n below 8, a bit n and a bit 7 in each mask.
pub fn beyond(random: &mut Random) -> Vec<File> {
    let mut files = Vec::new();
    for n in 1..MOST_STATES {
        let file = bytes_of(&random.model_of(n, 3));
        let in_events = (0..3).flat_map(|event| (0..n).map(move |p| 20 + event * (n + 4) + p));
        for at in [11, 15].into_iter().chain(in_events) {
            for bit in [n, 7] {
                let mut other = file.clone();
                other[at] |= 1 << bit;
                files.push(other);
            }
        }
    }
    files
}
