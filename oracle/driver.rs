//! Cases for the driver of the C interface, and all that comes back held against what must: every field, and every place of all memory.

use crate::children::output;
use crate::facts::Expected;
use std::fmt;

/// So many filled places stand before each slice, and so many behind it.
const GUARD: usize = 8;

#[derive(Clone, Copy, Debug, PartialEq)]
pub enum Call {
    Verdict,
    Opposite,
    Course,
    Read,
}

/// What the driver's call has: the names of the answer's fields, and the name and the bits of each slice, in the order of include/cover.h.
struct Shape {
    fields: &'static [&'static str],
    slices: &'static [(&'static str, usize)],
}

const VERDICT: Shape = Shape {
    fields: &["number", "verdict", "sets", "profiles", "u", "v"],
    slices: &[
        ("arrows", 64),
        ("set_masks", 8),
        ("set_from", 16),
        ("set_event", 8),
        ("profile_arrows", 64),
        ("profile_marks", 64),
        ("profile_from", 16),
        ("profile_event", 8),
        ("memory", 8),
    ],
};
const OPPOSITE: Shape = Shape {
    fields: &["number", "sets", "profiles", "states", "arrows"],
    slices: &[
        ("arrows", 64),
        ("set_masks", 8),
        ("set_from", 16),
        ("set_event", 8),
        ("profile_arrows", 64),
        ("profile_marks", 64),
        ("profile_from", 16),
        ("profile_event", 8),
        ("from", 16),
        ("event", 8),
        ("to", 16),
        ("flags", 8),
    ],
};
const COURSE: Shape = Shape {
    fields: &["number", "judgement"],
    slices: &[("arrows", 64), ("u", 8), ("v", 8)],
};
const READ: Shape = Shape {
    fields: &["number", "offset", "n", "k", "start", "home"],
    slices: &[("file", 8), ("arrows", 64)],
};

impl Call {
    fn shape(self) -> &'static Shape {
        match self {
            Call::Verdict => &VERDICT,
            Call::Opposite => &OPPOSITE,
            Call::Course => &COURSE,
            Call::Read => &READ,
        }
    }
}

/// A slice that the call reads, with its contents, or one that it writes, with its length.
pub enum Lent {
    Bytes(Vec<u8>),
    Numbers(Vec<u64>),
    Written(usize),
}

impl Lent {
    pub fn length(&self) -> usize {
        match self {
            Lent::Bytes(bytes) => bytes.len(),
            Lent::Numbers(numbers) => numbers.len(),
            Lent::Written(length) => *length,
        }
    }

    fn contents(&self) -> Vec<u8> {
        match self {
            Lent::Bytes(bytes) => bytes.clone(),
            Lent::Numbers(numbers) => numbers.iter().flat_map(|x| x.to_le_bytes()).collect(),
            Lent::Written(_) => Vec::new(),
        }
    }
}

pub struct Case {
    pub call: Call,
    /// How often it is timed; a case that is not timed is called once.
    pub times: usize,
    /// With seed 0 memory is all zeros before the call, else another number stands in nearly every place.
    pub seed: u64,
    /// n, k, start and home; zeros for the reader.
    pub numbers: [u64; 4],
    pub slices: Vec<Lent>,
}

/// What is asked and what must come back.
pub struct Question<'a> {
    pub case: Case,
    pub expected: Expected<'a>,
}

/// What came back: the fields, which are as expected, how long the slices were, and the nanoseconds of each timed call.
pub struct Told {
    pub call: Call,
    pub fields: Vec<u64>,
    pub lengths: Vec<usize>,
    pub took: Vec<u64>,
}

impl Case {
    fn stored(&self) -> Vec<u8> {
        let mut bytes = Vec::new();
        let head = [self.call as u64, self.times as u64, self.seed];
        for number in head.iter().chain(&self.numbers) {
            bytes.extend(number.to_le_bytes());
        }
        for slice in &self.slices {
            bytes.extend((slice.length() as u64).to_le_bytes());
            bytes.extend(slice.contents());
        }
        bytes
    }

    fn lengths(&self) -> Vec<usize> {
        self.slices.iter().map(Lent::length).collect()
    }
}

/// One line from which the case can be repeated by hand.
impl fmt::Display for Case {
    fn fmt(&self, out: &mut fmt::Formatter) -> fmt::Result {
        let [n, k, start, home] = self.numbers;
        write!(out, "{:?} seed {} ", self.call, self.seed)?;
        write!(out, "n {} k {} start {} home {}", n, k, start, home)?;
        for (slice, (name, _)) in self.slices.iter().zip(self.call.shape().slices) {
            match slice {
                Lent::Bytes(bytes) => write!(out, ", {} {}", name, shown(bytes))?,
                Lent::Numbers(numbers) => write!(out, ", {} {}", name, shown(numbers))?,
                Lent::Written(length) => write!(out, ", {} of {}", name, length)?,
            }
        }
        Ok(())
    }
}

/// All of what is short, and the beginning of what is long: by the seed of the cases the rest can be made again.
fn shown<T: fmt::Debug>(values: &[T]) -> String {
    let most = 250;
    let more = if values.len() > most { ".." } else { "" };
    let begin = &values[..values.len().min(most)];
    format!("of {} {:?}{}", values.len(), begin, more)
}

/// What the driver fills memory with, before the guards, the slice and the guards behind it.
fn noise(seed: u64, slice: usize, place: usize) -> u64 {
    if seed == 0 {
        return 0;
    }
    let tone = (seed * 16 + slice as u64).wrapping_mul(0x9E37_79B9_7F4A_7C15);
    let mixed = tone.wrapping_add((place as u64).wrapping_mul(0xBF58_476D_1CE4_E5B9));
    let mixed = (mixed ^ mixed >> 29).wrapping_mul(0x94D0_49BB_1331_11EB);
    mixed ^ mixed >> 32
}

/// The width is known where this is compiled, since most of the time goes here.
fn filled_by<const WIDTH: usize>(seed: u64, slice: usize, places: usize) -> Vec<u8> {
    let mut bytes = vec![0; places * WIDTH];
    for (place, element) in bytes.chunks_exact_mut(WIDTH).enumerate() {
        element.copy_from_slice(&noise(seed, slice, place).to_le_bytes()[..WIDTH]);
    }
    bytes
}

fn filled(seed: u64, slice: usize, width: usize, length: usize) -> Vec<u8> {
    let places = length + 2 * GUARD;
    match width {
        1 => filled_by::<1>(seed, slice, places),
        2 => filled_by::<2>(seed, slice, places),
        _ => filled_by::<8>(seed, slice, places),
    }
}

/// One process is asked all of these, and all that it gives back must be as expected.
pub fn ask(runner: &[&str], questions: &[Question]) -> Result<Vec<Told>, String> {
    let input: Vec<u8> = questions.iter().flat_map(|one| one.case.stored()).collect();
    let (success, bytes) = output(runner, &input).map_err(|fault| fault.to_string())?;
    let mut got = Got { bytes: &bytes };
    let mut told = Vec::new();
    for question in questions {
        let checked = got.checked(question);
        told.push(checked.map_err(|fault| format!("{}: {}", question.case, fault))?);
    }
    if !success || !got.bytes.is_empty() {
        let left = got.bytes.len();
        return Err(format!(
            "the driver ends with {} and {} bytes too many",
            success, left
        ));
    }
    Ok(told)
}

/// What is left of all that came back.
struct Got<'a> {
    bytes: &'a [u8],
}

impl<'a> Got<'a> {
    fn take(&mut self, count: usize) -> Result<&'a [u8], String> {
        if self.bytes.len() < count {
            return Err("the driver ends before it has answered".to_string());
        }
        let (first, rest) = self.bytes.split_at(count);
        self.bytes = rest;
        Ok(first)
    }

    fn numbers(&mut self, count: usize) -> Result<Vec<u64>, String> {
        let bytes = self.take(8 * count)?;
        Ok(bytes.chunks(8).map(number).collect())
    }

    fn checked(&mut self, question: &Question) -> Result<Told, String> {
        let (case, expected) = (&question.case, &question.expected);
        let shape = case.call.shape();
        let fields = self.numbers(shape.fields.len())?;
        for (at, name) in shape.fields.iter().enumerate() {
            let (got, right) = (fields[at], expected.fields[at]);
            if got != right {
                return Err(format!("field {}: got {}, expected {}", name, got, right));
            }
        }
        let took = self.numbers(case.times)?;
        let mut begins = expected.begins.iter();
        for (at, slice) in case.slices.iter().enumerate() {
            let begin = match slice {
                Lent::Written(_) => begins.next(),
                _ => None,
            };
            self.checked_slice(case, at, begin.map_or(&[], |begin| &begin[..]))?;
        }
        Ok(Told {
            call: case.call,
            fields,
            lengths: case.lengths(),
            took,
        })
    }

    fn checked_slice(&mut self, case: &Case, at: usize, begin: &[u64]) -> Result<(), String> {
        let (name, bits) = case.call.shape().slices[at];
        let (width, slice) = (bits / 8, &case.slices[at]);
        let mut right = filled(case.seed, at, width, slice.length());
        let contents = slice.contents();
        right[GUARD * width..][..contents.len()].copy_from_slice(&contents);
        let places = right[GUARD * width..].chunks_mut(width);
        for (place, value) in places.zip(begin) {
            place.copy_from_slice(&value.to_le_bytes()[..width]);
        }
        let got = self.take(right.len())?;
        if got == &right[..] {
            return Ok(());
        }
        let mut pairs = got.chunks(width).zip(right.chunks(width));
        let place = pairs.position(|(got, right)| got != right).unwrap_or(0);
        let value = |bytes: &[u8]| number(&bytes[place * width..][..width]);
        let what = where_is(place, begin.len(), slice);
        let (got, right) = (value(got), value(&right));
        Err(format!(
            "slice {}, {}: got {}, expected {}",
            name, what, got, right
        ))
    }
}

fn number(bytes: &[u8]) -> u64 {
    bytes
        .iter()
        .rev()
        .fold(0, |x, &byte| x << 8 | u64::from(byte))
}

/// Which place this is, counted with the guards.
fn where_is(place: usize, count: usize, slice: &Lent) -> String {
    let length = slice.length();
    match place.checked_sub(GUARD) {
        None => format!("guard {} before the slice", GUARD - place),
        Some(at) if at >= length => format!("guard {} behind the slice", at - length + 1),
        Some(at) if !matches!(slice, Lent::Written(_)) => format!("place {}, which is read", at),
        Some(at) if at >= count => format!("place {}, past the count {}", at, count),
        Some(at) => format!("place {} of {}", at, count),
    }
}
