//! One part of the comparison: how many cases it had, and where the two sides differed.

use std::collections::BTreeMap;
use std::fmt;

/// As much of a differing input as is printed, in bytes.
const SHOWN: usize = 96;

pub struct Part {
    /// What a case is called, in the plural.
    unit: &'static str,
    cases: u64,
    differences: u64,
    /// How many IPv4 fragments were not compared with the Rust.
    fragments: u64,
    /// How often each outcome was due of T-PDUs that were not compared since their UDP length does not
    /// fill their part: the IP version and a number, or 0.
    unfilled: BTreeMap<(u8, u8), u64>,
    /// What else is to be printed, a line each.
    notes: Vec<String>,
    /// Of all differences the one with the shortest input, the first of several: its length
    /// and what is printed.
    shortest: Option<(usize, String)>,
}

impl Part {
    pub fn new(unit: &'static str) -> Self {
        Self {
            unit,
            cases: 0,
            differences: 0,
            fragments: 0,
            unfilled: BTreeMap::new(),
            notes: Vec::new(),
            shortest: None,
        }
    }

    /// Counts a case on `input`: two answers that ought to be equal.
    pub fn case<T: PartialEq + fmt::Debug>(&mut self, input: &[u8], answer: T, expected: T) {
        self.cases += 1;
        if answer == expected {
            return;
        }
        self.differences += 1;
        let shorter = match self.shortest {
            None => true,
            Some((length, _)) => input.len() < length,
        };
        if shorter {
            let text = format!("{answer:?} instead of {expected:?} on {}", hex(input));
            self.shortest = Some((input.len(), text));
        }
    }

    /// Counts an IPv4 fragment, which is not compared with the Rust (compared.rs).
    pub fn leave_out_fragment(&mut self) {
        self.fragments += 1;
    }

    /// Counts a T-PDU whose UDP length does not fill its part, and which is not compared either.
    pub fn leave_out_unfilled(&mut self, version: u8, number: u8) {
        *self.unfilled.entry((version, number)).or_insert(0) += 1;
    }

    /// Prints this below the part's line, and below the notes before it.
    pub fn note(&mut self, note: String) {
        self.notes.push(note);
    }

    pub fn cases(&self) -> u64 {
        self.cases
    }

    pub fn differences(&self) -> u64 {
        self.differences
    }

    pub fn fragments(&self) -> u64 {
        self.fragments
    }

    pub fn unfilled(&self) -> u64 {
        self.unfilled.values().sum()
    }

    /// What was due of unfilled T-PDUs, each IP version and number once.
    pub fn unfilled_outcomes(&self) -> Vec<(u8, u8)> {
        self.unfilled.keys().copied().collect()
    }

    /// Whether the sides differed. A part with no case at all shows nothing, so it fails too.
    pub fn failed(&self) -> bool {
        self.differences > 0 || self.cases == 0
    }
}

impl fmt::Display for Part {
    fn fmt(&self, f: &mut fmt::Formatter<'_>) -> fmt::Result {
        let (cases, differences) = (grouped(self.cases), grouped(self.differences));
        write!(f, "{cases} {}, {differences} differences", self.unit)?;
        f.write_str(&left_out(self.fragments, self.unfilled()))?;
        for note in &self.notes {
            write!(f, "\n  {note}")?;
        }
        if !self.unfilled.is_empty() {
            let counts = self.unfilled.iter().map(|((version, number), &count)| {
                format!("IPv{version} {number}: {}", grouped(count))
            });
            write!(f, "\n  unfilled: {}", counts.collect::<Vec<_>>().join(", "))?;
        }
        if let Some((_, text)) = &self.shortest {
            write!(f, "\n  FAILED: {text}")?;
        } else if self.failed() {
            write!(f, "\n  FAILED: nothing was compared")?;
        }
        Ok(())
    }
}

/// How many T-PDUs were not compared with the Rust, if any were not.
pub fn left_out(fragments: u64, unfilled: u64) -> String {
    match (fragments, unfilled) {
        (0, 0) => String::new(),
        _ => format!(
            ", left out: {} fragments, {} unfilled",
            grouped(fragments),
            grouped(unfilled)
        ),
    }
}

/// A 16-bit word of a packet, which is printed in hexadecimal.
#[derive(Clone, Copy, PartialEq, Eq)]
pub struct Word(pub u16);

impl fmt::Debug for Word {
    fn fmt(&self, f: &mut fmt::Formatter<'_>) -> fmt::Result {
        write!(f, "{:#06x}", self.0)
    }
}

/// Bytes of a packet, which are printed in hexadecimal.
#[derive(Clone, Copy, PartialEq, Eq)]
pub struct Bytes<T>(pub T);

impl<T: AsRef<[u8]>> fmt::Debug for Bytes<T> {
    fn fmt(&self, f: &mut fmt::Formatter<'_>) -> fmt::Result {
        f.write_str(&hex(self.0.as_ref()))
    }
}

/// A number with its digits in groups of three.
pub fn grouped(number: u64) -> String {
    let digits = number.to_string();
    let mut text = String::new();
    for (index, digit) in digits.chars().enumerate() {
        if index > 0 && (digits.len() - index).is_multiple_of(3) {
            text.push(',');
        }
        text.push(digit);
    }
    text
}

/// An input in hexadecimal; of a long one, its start.
fn hex(bytes: &[u8]) -> String {
    let shown: String = bytes
        .iter()
        .take(SHOWN)
        .map(|byte| format!("{byte:02x}"))
        .collect();
    match bytes.len() {
        0 => "no bytes".to_string(),
        length if length > SHOWN => format!("{shown}.. ({} bytes)", grouped(length as u64)),
        _ => shown,
    }
}
