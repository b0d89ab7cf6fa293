//! The model file: the bytes of a model, and a reader that goes through bytes with a cursor, field by field.

use crate::model::{Model, MOST_EVENTS, MOST_STATES};

const END: u8 = 0x7F;

#[derive(Clone, Debug, PartialEq)]
pub struct Fault {
    pub number: u8,
    pub offset: usize,
}

pub fn bytes_of(model: &Model) -> Vec<u8> {
    let mut bytes = Vec::new();
    let numbers = [model.n as u8, model.k as u8, model.start, model.home];
    for (tag, number) in (1..).zip(numbers) {
        put_field(&mut bytes, tag, &[number]);
    }
    for event in 0..model.k {
        let rows = model.arrows[event].to_le_bytes();
        put_field(&mut bytes, 5, &[&[event as u8], &rows[..model.n]].concat());
    }
    put_field(&mut bytes, END, &[]);
    bytes
}

fn put_field(bytes: &mut Vec<u8>, tag: u8, value: &[u8]) {
    bytes.push(tag);
    bytes.extend((value.len() as u16).to_le_bytes());
    bytes.extend(value);
}

struct Cursor<'a> {
    bytes: &'a [u8],
    at: usize,
}

impl<'a> Cursor<'a> {
    fn fault<T>(&self, number: u8) -> Result<T, Fault> {
        let offset = self.at;
        Err(Fault { number, offset })
    }

    /// The value of the field here, if it has this tag and length and is all there; the cursor stays.
    fn value(&self, tag: u8, length: usize) -> Result<&'a [u8], Fault> {
        match self.bytes[self.at..] {
            [first, low, high, ref rest @ ..]
                if first == tag
                    && usize::from(u16::from_le_bytes([low, high])) == length
                    && rest.len() >= length =>
            {
                Ok(&rest[..length])
            }
            _ => self.fault(8),
        }
    }

    fn pass(&mut self, length: usize) {
        self.at += 3 + length;
    }

    fn number(&mut self, tag: u8, most: usize) -> Result<usize, Fault> {
        let number = usize::from(self.value(tag, 1)?[0]);
        if number < 1 || number > most {
            return self.fault(1);
        }
        self.pass(1);
        Ok(number)
    }

    fn masks(&mut self, tag: u8, before: &[u8], masks: usize, n: usize) -> Result<&'a [u8], Fault> {
        let length = before.len() + masks;
        let value = self.value(tag, length)?;
        if !value.starts_with(before) {
            return self.fault(8);
        }
        let value = &value[before.len()..];
        if value.iter().any(|&mask| u32::from(mask) >> n > 0) {
            return self.fault(3);
        }
        self.pass(length);
        Ok(value)
    }
}

/// The model, or the first fault, when there is room for so many arrow numbers.
pub fn read(bytes: &[u8], room: usize) -> Result<Model, Fault> {
    let mut cursor = Cursor { bytes, at: 0 };
    let n = cursor.number(1, MOST_STATES)?;
    let before_k = cursor.at;
    let k = cursor.number(2, MOST_EVENTS)?;
    if k > room {
        cursor.at = before_k;
        return cursor.fault(2);
    }
    let start = cursor.masks(3, &[], 1, n)?[0];
    let home = cursor.masks(4, &[], 1, n)?[0];
    let mut arrows = Vec::new();
    for event in 0..k {
        let mut rows = [0; 8];
        rows[..n].copy_from_slice(cursor.masks(5, &[event as u8], n, n)?);
        arrows.push(u64::from_le_bytes(rows));
    }
    cursor.value(END, 0)?;
    cursor.pass(0);
    if cursor.at < bytes.len() {
        return cursor.fault(8);
    }
    Ok(Model {
        n,
        k,
        start,
        home,
        arrows,
    })
}
