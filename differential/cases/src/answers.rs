//! Answers that fit: the reference is run, the call it wants is answered, until the step ends.

use reference::{calls, step, Answer, Outcome, Step};

use crate::machines;
use crate::random::Random;

/// How the host answers.
#[derive(Clone, Copy, PartialEq)]
pub enum Mood {
    /// Every verdict is 0.
    Willing,
    /// A verdict in five is another.
    Mixed,
}

fn verdict(r: &mut Random, mood: Mood) -> u8 {
    match (mood, r.below(20)) {
        (Mood::Mixed, 0) => 1,
        (Mood::Mixed, 1..=3) => 2 + r.below(254) as u8,
        _ => 0,
    }
}

/// A fitting answer record, with its kind. What a verdict or an absence makes ignored is random.
pub fn fitting(r: &mut Random, code: u8, mood: Mood) -> Vec<u8> {
    let mut record = vec![code];
    match code {
        0x30 | 0x33 | 0x34 => record.push(r.below(2) as u8),
        0x31 => record.extend(if r.chance(25) { [0; 16] } else { r.octets() }),
        0x32 => {
            record.push(verdict(r, mood));
            record.extend(machines::address(r));
        }
        0x35 => record.extend(if r.chance(5) { [0; 16] } else { r.octets() }),
        0x36 => record.extend(r.passkey().to_le_bytes()),
        0x37 => record.extend(r.octets::<16>()),
        0x38 => record.extend(r.octets::<2>()),
        0x39 => record.extend(r.octets::<8>()),
        0x3a => {
            record.push(verdict(r, mood));
            push_bond(r, &mut record, true);
        }
        0x3b => {
            let verdict = verdict(r, mood);
            let present = r.chance(70);
            record.push(verdict);
            record.push(if verdict == 0 { present.into() } else { r.octet() });
            push_bond(r, &mut record, present);
        }
        _ => record.push(verdict(r, mood)),
    }
    record
}

/// A bond; any octets where the verdict before it, or its absence, makes it ignored.
fn push_bond(r: &mut Random, record: &mut Vec<u8>, present: bool) {
    if record[1] == 0 && present {
        record.extend(machines::bond(r));
    } else {
        record.extend(r.octets::<51>());
    }
}

/// The call that a wanting step listed last.
pub fn wanted(answer: &Answer) -> Option<u8> {
    if answer.outcome != Outcome::Wants {
        return None;
    }
    calls::records(&answer.list[..answer.written])?.last().map(|(kind, _)| kind.code)
}

/// Appends fitting answers to those in `records` until the step no longer wants one.
pub fn drive(r: &mut Random, given: &Step, records: &mut Vec<Vec<u8>>, mood: Mood) {
    let mut run = given.clone();
    run.list_len = reference::step::LONGEST;
    run.answers = records.concat();
    while let Some(code) = wanted(&step(&run)) {
        let record = fitting(r, code, mood);
        run.answers.extend(&record);
        records.push(record);
    }
}
