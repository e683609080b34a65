//! Variations of a step whose answers are known: shorter, longer and damaged answers.

use reference::{calls, lines, Step};

use crate::answers::{drive, Mood};
use crate::random::Random;
use crate::Sink;

/// Emits the step with these answers.
pub fn emit(sink: &mut Sink, given: &Step, answers: Vec<u8>) {
    sink.step(&Step { answers, ..given.clone() });
}

/// Every beginning of the answers that ends between records, the whole among them.
pub fn prefixes(sink: &mut Sink, given: &Step, records: &[Vec<u8>]) {
    for count in 0..=records.len() {
        emit(sink, given, records[..count].concat());
    }
}

/// Beginnings that end inside a record: all of them, or one for each record.
pub fn cuts(r: &mut Random, sink: &mut Sink, given: &Step, records: &[Vec<u8>], all: bool) {
    for (i, record) in records.iter().enumerate() {
        let before = records[..i].concat();
        let lengths = if all { 1..record.len() } else { one(1 + r.below(record.len() - 1)) };
        for length in lengths {
            emit(sink, given, [&before, &record[..length]].concat());
        }
    }
}

fn one(n: usize) -> std::ops::Range<usize> {
    n..n + 1
}

/// The whole answers with something left over.
pub fn leftover(r: &mut Random, sink: &mut Sink, given: &Step, records: &[Vec<u8>]) {
    let more = match r.below(4) {
        0 => vec![0x20, 0x00],
        1 => vec![r.octet()],
        2 if r.chance(3) => r.some(lines::MOST - records.concat().len()),
        2 => records.last().cloned().unwrap_or_else(|| vec![0]),
        _ => {
            let length = 1 + r.below(60);
            r.some(length)
        }
    };
    emit(sink, given, [records.concat(), more].concat());
}

/// Every damage at one record: other kinds, cuts, forbidden values, and verdicts, after which the
/// step is driven to its end again.
pub fn damage(r: &mut Random, sink: &mut Sink, given: &Step, records: &[Vec<u8>], at: usize) {
    let (before, record) = (&records[..at], &records[at]);
    for changed in spoilt(r, record) {
        let rest = if r.chance(50) { records[at + 1..].concat() } else { Vec::new() };
        emit(sink, given, [before.concat(), changed, rest].concat());
    }
    for changed in turned(r, record) {
        let mut again = [before, &[changed][..]].concat();
        drive(r, given, &mut again, Mood::Willing);
        emit(sink, given, again.concat());
        if r.chance(50) {
            emit(sink, given, again[..=at].concat());
        }
    }
}

/// One record spoilt in one way; the records after it are left out.
pub fn spoil_one(r: &mut Random, sink: &mut Sink, given: &Step, records: &[Vec<u8>], at: usize) {
    let ways = spoilt(r, &records[at]);
    let changed = &ways[r.below(ways.len())];
    emit(sink, given, [&records[..at].concat(), &changed[..]].concat());
}

/// The record with another kind, cut, or with a forbidden value.
fn spoilt(r: &mut Random, record: &[u8]) -> Vec<Vec<u8>> {
    let mut found = Vec::new();
    let other_kind = loop {
        let kind = if r.chance(50) { calls::KINDS[r.below(26)].code } else { r.octet() };
        if kind != record[0] {
            break kind;
        }
    };
    found.push(with(record, 0, other_kind));
    found.push(record[..1 + r.below(record.len() - 1)].to_vec());
    let bad = r.above_one();
    match record[0] {
        0x30 | 0x33 | 0x34 => found.push(with(record, 1, bad)),
        0x36 => {
            let passkey = r.pick(&[1_000_000, 1_000_001, 0xffff_ffff, 0x0100_0000, 0x8000_0000]);
            found.push([&record[..1], &u32::to_le_bytes(passkey)[..]].concat());
        }
        0x3a if record[1] == 0 => found.push(with(record, 28, bad)),
        0x3b if record[1] == 0 => {
            found.push(with(record, 2, bad));
            found.push(with(&with(record, 2, 1), 29, bad));
        }
        _ => {}
    }
    found
}

/// The record with other verdicts, or turned to absence; ignored octets are random.
fn turned(r: &mut Random, record: &[u8]) -> Vec<Vec<u8>> {
    let mut found = Vec::new();
    if calls::find(record[0]).is_some_and(|kind| kind.verdict) {
        let other = 2 + r.below(254) as u8;
        for verdict in [1, other] {
            let ignored = r.some(record.len() - 2);
            found.push([&[record[0], verdict][..], &ignored].concat());
        }
    }
    if record[0] == 0x3b {
        found.push([&[0x3b, 0, 0][..], &r.octets::<51>()].concat());
    }
    found
}

fn with(record: &[u8], at: usize, octet: u8) -> Vec<u8> {
    let mut changed = record.to_vec();
    changed[at] = octet;
    changed
}

/// A few variations, picked at random.
pub fn some(r: &mut Random, sink: &mut Sink, given: &Step, records: &[Vec<u8>], count: usize) {
    for _ in 0..count {
        match r.below(4) {
            _ if records.is_empty() => leftover(r, sink, given, records),
            0 => leftover(r, sink, given, records),
            1 => {
                let kept = r.below(records.len());
                emit(sink, given, records[..kept].concat());
            }
            2 => {
                let whole = records.concat();
                let kept = r.below(whole.len());
                emit(sink, given, whole[..kept].to_vec());
            }
            _ => {
                let at = r.below(records.len());
                spoil_one(r, sink, given, records, at);
            }
        }
    }
}

/// Everything: prefixes, cuts, leftovers, and every damage at every record.
pub fn everything(r: &mut Random, sink: &mut Sink, given: &Step, records: &[Vec<u8>]) {
    prefixes(sink, given, records);
    cuts(r, sink, given, records, false);
    leftover(r, sink, given, records);
    for at in 0..records.len() {
        damage(r, sink, given, records, at);
    }
}
