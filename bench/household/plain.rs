//! A plain hand-written reader of households and tables with the same checks, which the bench compares
//! the proved one with.

use std::collections::HashMap;
use std::time::Instant;

const ROWS: usize = 100_000;
const MOST: u128 = 10_000_000_000_000_000_000;

#[derive(Debug)]
pub enum Fault {
    BadHeader,
    TooManyRows,
    BadRow(u32),
    UnknownCode(u32),
    BadAmount(u32),
    CodeTwice(u32),
}

type Codes = HashMap<Vec<u8>, u32>;
type Pairs = Vec<(u32, i128)>;

/// The records of bytes, one after another: the bytes of all fields, and where each ends.
struct Records<'a> {
    bytes: &'a [u8],
    at: usize,
    text: Vec<u8>,
    ends: Vec<usize>,
}

impl<'a> Records<'a> {
    fn new(bytes: &'a [u8]) -> Records<'a> {
        let at = if bytes.starts_with(b"\xef\xbb\xbf") { 3 } else { 0 };
        Records { bytes, at, text: Vec::new(), ends: Vec::new() }
    }

    fn len(&self) -> usize {
        self.ends.len()
    }

    fn field(&self, place: usize) -> &[u8] {
        let start = if place == 0 { 0 } else { self.ends[place - 1] };
        &self.text[start..self.ends[place]]
    }

    fn next(&mut self) -> bool {
        let bytes = self.bytes;
        self.text.clear();
        self.ends.clear();
        while self.at < bytes.len() && (bytes[self.at] == b'\n' || bytes[self.at] == b'\r') {
            self.at += 1;
        }
        if self.at == bytes.len() {
            return false;
        }
        loop {
            if self.at < bytes.len() && bytes[self.at] == b'"' {
                self.quoted();
            }
            let start = self.at;
            while self.at < bytes.len() && !matches!(bytes[self.at], b',' | b'\n' | b'\r') {
                self.at += 1;
            }
            self.text.extend_from_slice(&bytes[start..self.at]);
            self.ends.push(self.text.len());
            if self.at == bytes.len() {
                return true;
            }
            self.at += 1;
            if bytes[self.at - 1] != b',' {
                return true;
            }
        }
    }

    fn quoted(&mut self) {
        let bytes = self.bytes;
        self.at += 1;
        while self.at < bytes.len() {
            let byte = bytes[self.at];
            self.at += 1;
            if byte == b'"' {
                if self.at < bytes.len() && bytes[self.at] == b'"' {
                    self.at += 1;
                } else {
                    return;
                }
            }
            self.text.push(byte);
        }
    }
}

/// The millionths of an amount, rounded at the sixth decimal, halves away from zero.
fn amount(text: &[u8]) -> Option<i128> {
    let (negative, number) = match text.split_first() {
        Some((b'-', rest)) => (true, rest),
        _ => (false, text),
    };
    let (whole, decimals) = match number.iter().position(|byte| *byte == b'.') {
        Some(point) => (&number[..point], Some(&number[point + 1..])),
        None => (number, None),
    };
    if whole.is_empty() || decimals.is_some_and(|d| d.is_empty()) {
        return None;
    }
    let mut size: u128 = 0;
    for byte in whole {
        if !byte.is_ascii_digit() {
            return None;
        }
        size = (size * 10 + (byte - b'0') as u128).min(MOST);
    }
    size = size.saturating_mul(1_000_000);
    let mut unit: u128 = 100_000;
    for (place, byte) in decimals.unwrap_or(b"").iter().enumerate() {
        if !byte.is_ascii_digit() {
            return None;
        }
        let digit = (byte - b'0') as u128;
        if place < 6 {
            size += digit * unit;
            unit /= 10;
        } else if place == 6 && digit >= 5 {
            size += 1;
        }
    }
    if size > MOST {
        return None;
    }
    Some(if negative { -(size as i128) } else { size as i128 })
}

fn line_behind(rows: usize) -> Result<u32, Fault> {
    if rows >= ROWS { Err(Fault::TooManyRows) } else { Ok(rows as u32 + 2) }
}

fn household(bytes: &[u8], codes: &Codes) -> Result<Pairs, Fault> {
    let mut records = Records::new(bytes);
    if !records.next() || records.len() != 2 || records.field(0) != b"code" || records.field(1) != b"amount" {
        return Err(Fault::BadHeader);
    }
    let mut seen = vec![false; codes.len()];
    let mut pairs = Vec::new();
    while records.next() {
        let line = line_behind(pairs.len())?;
        if records.len() != 2 {
            return Err(Fault::BadRow(line));
        }
        let input = *codes.get(records.field(0)).ok_or(Fault::UnknownCode(line))?;
        let amount = amount(records.field(1)).ok_or(Fault::BadAmount(line))?;
        if std::mem::replace(&mut seen[input as usize], true) {
            return Err(Fault::CodeTwice(line));
        }
        pairs.push((input, amount));
    }
    Ok(pairs)
}

fn table(bytes: &[u8], codes: &Codes) -> Result<Vec<(Vec<u8>, Pairs)>, Fault> {
    let mut records = Records::new(bytes);
    if !records.next() || records.field(0) != b"name" {
        return Err(Fault::BadHeader);
    }
    let mut seen = vec![false; codes.len()];
    let mut columns = Vec::new();
    for place in 1..records.len() {
        let input = *codes.get(records.field(place)).ok_or(Fault::UnknownCode(1))?;
        if std::mem::replace(&mut seen[input as usize], true) {
            return Err(Fault::CodeTwice(1));
        }
        columns.push(input);
    }
    let mut rows = Vec::new();
    while records.next() {
        let line = line_behind(rows.len())?;
        let label = records.field(0);
        if records.len() != columns.len() + 1 || label.is_empty() || label.iter().any(|byte| *byte < 32) {
            return Err(Fault::BadRow(line));
        }
        let mut pairs = Vec::with_capacity(columns.len());
        for (column, input) in columns.iter().enumerate() {
            let cell = records.field(column + 1);
            if !cell.is_empty() {
                pairs.push((*input, amount(cell).ok_or(Fault::BadAmount(line))?));
            }
        }
        rows.push((label.to_vec(), pairs));
    }
    Ok(rows)
}

fn main() {
    let words: Vec<String> = std::env::args().collect();
    let bytes = std::fs::read(&words[2]).expect("the file's bytes");
    let codes: Codes = (0..100_000).map(|k| (format!("C{k}").into_bytes(), k)).collect();
    for _ in 0..5 {
        let start = Instant::now();
        let count = if words[1] == "household" {
            household(&bytes, &codes).expect("a household").len()
        } else {
            table(&bytes, &codes).expect("a table").len()
        };
        println!("{} {}", count, start.elapsed().as_micros());
    }
}
