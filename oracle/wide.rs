//! That the cases hold what is claimed of them.

use crate::courses::MOST_LETTERS;
use crate::driver::{Call, Told};
use crate::models::at_the_limit;
use crate::opposite::counted;
use crate::rooms::LONGEST;
use crate::tables::Tables;
use std::collections::HashSet;

/// Every number that can come did come of each call, and what is named below.
pub fn assert_wide(all: &[Told]) {
    let of = |call: Call| {
        let told = all.iter().filter(move |told| told.call == call);
        told.collect::<Vec<&Told>>()
    };
    assert_verdicts(&of(Call::Verdict));
    assert_opposites(&of(Call::Opposite));
    assert_courses(&of(Call::Course));
    assert_files(&of(Call::Read));
}

fn assert_numbers(all: &[&Told], numbers: &[u64]) {
    for number in numbers {
        let some = all.iter().any(|told| told.fields[0] == *number);
        assert!(some, "no answer {} of {:?}", number, all[0].call);
    }
}

fn assert_some(all: &[&Told], what: &str, test: impl Fn(&Told) -> bool) {
    assert!(all.iter().any(|told| test(told)), "no {}", what);
}

fn assert_verdicts(all: &[&Told]) {
    assert_numbers(all, &[0, 1, 2, 3, 4, 5, 6]);
    let some = |what: &str, test: &dyn Fn(&[u64]) -> bool| {
        assert_some(all, what, |told| told.fields[0] == 0 && test(&told.fields))
    };
    some("covered with more than 8 sets", &|f| f[1] == 1 && f[2] > 8);
    some("uncovered with 256 sets", &|f| {
        f[1] == 2 && f[2] == 256 && f[3] > 2_000
    });
    some("words of 50 letters", &|f| f[4] == 50 && f[5] == 50);
    some("2,047 profiles", &|f| f[3] == 2_047);
    some("2,048 profiles", &|f| f[3] == 2_048);
    assert_some(all, "cut at the limit", |told| {
        told.fields[0] == 5 && told.fields[3] == 2_048
    });
    assert_some(all, "5 with no word memory", |told| {
        told.fields[0] == 5 && told.lengths[8] == 0
    });
    assert_lengths(all, 9);
}

fn assert_opposites(all: &[&Told]) {
    assert_numbers(all, &[0, 1, 2, 3, 4, 5, 7]);
    let some = |what: &str, test: &dyn Fn(&[u64]) -> bool| {
        assert_some(all, what, |told| told.fields[0] == 0 && test(&told.fields))
    };
    some("opposite with one state", &|f| f[3] == 1);
    some("opposite with thousands of states", &|f| f[3] > 10_000);
    some("opposite with 65,535 arrows", &|f| f[4] == 65_535);
    let arrows = at_the_limit().map(|model| counted(&Tables::close(&model, None, None)).arrows);
    assert_eq!(arrows, [65_535, 65_536]);
    some("opposite near the limits", &|f| {
        f[1] == 256 && f[2] > 2_000 && f[4] > 30_000
    });
    assert_some(all, "opposite above the limits", |told| {
        told.fields[0] == 7 && told.lengths[8..].iter().all(|&room| room >= 65_535)
    });
    assert_some(
        all,
        "opposite of a model that is cut at the limit",
        |told| told.fields[0] == 5 && told.fields[2] == 2_048,
    );
    assert_lengths(all, 12);
}

/// Every slice was there with no place, and longer than 16 bits can count.
fn assert_lengths(all: &[&Told], slices: usize) {
    for slice in 0..slices {
        for length in [0, LONGEST] {
            assert_some(all, "slice of every length", |told| {
                told.lengths[slice] == length
            });
        }
    }
}

/// Accepted and not accepted, u and v of every length up to 40, and very long ones.
fn assert_courses(all: &[&Told]) {
    assert_numbers(all, &[0, 1, 2, 3, 9, 10]);
    for judgement in [1, 2] {
        let given = |told: &&&Told| told.fields[..] == [0, judgement];
        let lengths = |told: &&Told| (told.lengths[1], told.lengths[2]);
        let (u, v): (HashSet<usize>, HashSet<usize>) =
            all.iter().filter(given).map(lengths).unzip();
        assert!((0..=MOST_LETTERS).all(|length| u.contains(&length)));
        assert!((1..=MOST_LETTERS).all(|length| v.contains(&length)));
        assert!(u.contains(&LONGEST) && v.contains(&LONGEST));
    }
    assert_lengths(all, 3);
}

/// 2 with every room below 16.
fn assert_files(all: &[&Told]) {
    assert_numbers(all, &[0, 1, 2, 3, 8]);
    for room in 0..16 {
        assert_some(all, "file without room", |told| {
            told.fields[0] == 2 && told.lengths[1] == room
        });
    }
    assert_some(all, "file of no byte", |told| told.lengths[0] == 0);
    assert_some(all, "very long file", |told| told.lengths[0] > 65_536);
    assert_some(all, "very long room", |told| {
        told.fields[0] == 0 && told.lengths[1] == LONGEST
    });
}
