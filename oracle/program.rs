//! Runs the program on model files, whole and damaged, and holds every line it prints against what is found here.

use crate::children::{answer, each};
use crate::course::letters;
use crate::damage::{
    beyond, c, changed, cut, largest, lengthened, noise, reordered, scratched, shifted, valid, File,
};
use crate::file::{bytes_of, read};
use crate::model::{Model, Verdict, MOST_EVENTS};
use crate::random::Random;
use crate::tables::Tables;
use std::collections::BTreeMap;

const SEED: u64 = 6;

/// What the program must print for these bytes.
pub fn printed(file: &[u8]) -> String {
    match read(file, MOST_EVENTS) {
        Err(fault) => format!("refused {} at {}\n", fault.number, fault.offset),
        Ok(model) => verdict(&model),
    }
}

fn verdict(model: &Model) -> String {
    let tables = Tables::close(model, None, None);
    let (sets, profiles) = (tables.sets.entries.len(), tables.profiles.entries.len());
    let counts = format!("sets {}\nprofiles {}\n", sets, profiles);
    match tables.verdict() {
        None => format!("refused {}\n", tables.refusal()),
        Some(Verdict::Covered) => counts + "covered\n",
        Some(Verdict::Uncovered((u, v))) => {
            counts + &format!("uncovered\nu{}\nv{}\n", letters(&u), letters(&v))
        }
    }
}

/// `program` is the command that runs the program.
pub fn run(program: &[&str]) -> i32 {
    let mut answers: BTreeMap<String, usize> = BTreeMap::new();
    let (mut begun, mut high) = (false, false);
    for (name, files) in batches() {
        match compare(program, &files) {
            Ok(printed) => {
                for text in printed {
                    *answers.entry(kind(&text)).or_default() += 1;
                    begun |= text.contains("\nu ");
                    high |= (10..MOST_EVENTS).any(|event| text.contains(&format!("\nv {}", event)));
                }
            }
            Err(fault) => {
                println!("FAILED {}: {}", name, fault);
                return 1;
            }
        }
        println!("ok {}: {}", name, files.len());
    }
    let told: Vec<String> = answers
        .iter()
        .map(|(kind, count)| format!("{} {}", kind, count))
        .collect();
    println!(
        "{} files with seed {}: {}",
        answers.values().sum::<usize>(),
        SEED,
        told.join(", ")
    );
    assert_wide(&answers, begun && high);
    0
}

/// Every kind of answer was given, also with events in u and with an event of two digits.
fn assert_wide(answers: &BTreeMap<String, usize>, words: bool) {
    assert!(words, "no u with an event, or no event of two digits");
    for kind in [
        "covered",
        "uncovered",
        "refused 1",
        "refused 3",
        "refused 5",
        "refused 8",
    ] {
        assert!(
            answers.contains_key(kind),
            "no file is answered with {}",
            kind
        );
    }
}

fn batches() -> Vec<(&'static str, Vec<File>)> {
    let random = &mut Random::new(SEED);
    let whole: Vec<File> = valid(random, 3).iter().map(bytes_of).collect();
    vec![
        (
            "hand-worked models, our own, and three for every n and k",
            whole,
        ),
        ("C's file with every byte changed", changed(&c())),
        ("C's file cut at every length", cut(&c())),
        ("C's file with bytes added", lengthened(&c())),
        ("C's file with a byte left out or doubled", shifted(&c())),
        (
            "C's file with fields left out, doubled or swapped",
            reordered(&c()),
        ),
        (
            "a largest file with every byte changed",
            changed(&largest()),
        ),
        ("a largest file cut at every length", cut(&largest())),
        ("a largest file with bytes added", lengthened(&largest())),
        (
            "a largest file with a byte left out or doubled",
            shifted(&largest()),
        ),
        (
            "a largest file with fields left out, doubled or swapped",
            reordered(&largest()),
        ),
        ("a bit for a state n or above in every mask", beyond(random)),
        (
            "random files with up to three bytes changed",
            scratched(random, 300),
        ),
        ("random bytes behind a right beginning", noise(random, 100)),
    ]
}

/// What was answered: the third line, or "refused" and its number.
pub fn kind(text: &str) -> String {
    let lines: Vec<&str> = text.lines().collect();
    let line = lines.get(2).unwrap_or(&lines[0]);
    line.split(" at ").next().unwrap_or(line).to_string()
}

/// What was printed for each file, or the first file for which it is wrong.
pub fn compare(program: &[&str], files: &[File]) -> Result<Vec<String>, String> {
    each(files, |file| agrees(program, file))
}

fn agrees(program: &[&str], file: &File) -> Result<String, String> {
    let expected = printed(file);
    let (success, got) = answer(program, file).map_err(|fault| fault.to_string())?;
    if success && got == expected {
        return Ok(expected);
    }
    Err(format!(
        "{} bytes, {:02X?}: the program ends with {} and prints {:?}, expected {:?}",
        file.len(),
        &file[..file.len().min(212)],
        success,
        got,
        expected
    ))
}
