//! Families over single steps: every phase with every input and length, damaged answers, list
//! lengths, command codes, random machines, confirm values.

use reference::{lines, machine, Input, Role, Step};

use crate::answers::{drive, Mood};
use crate::machines;
use crate::random::Random;
use crate::vary;
use crate::Sink;

const ROLES: [Role; 2] = [Role::Central, Role::Peripheral];

/// Payload lengths of the sweep; the longest ones are rare.
const LENGTHS: [usize; 25] =
    [0, 1, 2, 3, 4, 5, 6, 7, 8, 9, 10, 11, 12, 13, 14, 15, 16, 17, 18, 19, 20, 32, 64, 65, 255];

/// How many cells the sweep of lengths has: roles, phases, codes, lengths.
pub const LENGTH_CELLS: usize = 2 * 11 * 14 * LENGTHS.len();

/// How many cells the grid has: roles, phases, inputs (14 codes, six events).
pub const GRID_CELLS: usize = 2 * 11 * 20;

fn mood(r: &mut Random) -> Mood {
    r.pick(&[Mood::Willing, Mood::Willing, Mood::Mixed])
}

fn event(r: &mut Random, number: usize) -> Input {
    match number {
        0 => Input::LinkEncryptedResult(false),
        1 => Input::LinkEncryptedResult(true),
        2 => Input::PassKeyConfirm,
        3 => Input::PassKeyCancel,
        4 => Input::PassKeyInput(if r.chance(70) { r.passkey() } else { r.word() as u32 }),
        _ => Input::OobDataReceived(r.octets()),
    }
}

/// A list length: mostly the shortest that is enough.
fn list_len(r: &mut Random) -> usize {
    match r.below(200) {
        0 => 4096,
        1..=15 => 165 + r.below(200),
        _ => 164,
    }
}

/// A step with a random machine of the phase that fits the input in what matters.
fn build(r: &mut Random, role: Role, phase: u8, input: Input, payload: Vec<u8>) -> Step {
    let mut machine = machines::machine(r, role, phase);
    machines::correlate(r, role, &mut machine, input, &payload);
    if let (8, Input::Command(code @ (0x06 | 0x07)), true) = (phase, input, r.chance(75)) {
        machine[machine::DETAIL] = code - 0x06;
    }
    Step { role, list_len: list_len(r), machine, input, payload, answers: Vec::new() }
}

fn emit_driven(r: &mut Random, sink: &mut Sink, given: &Step, variations: usize) {
    let mut records = Vec::new();
    let mood = mood(r);
    drive(r, given, &mut records, mood);
    vary::emit(sink, given, records.concat());
    vary::some(r, sink, given, &records, variations);
}

/// One cell of the sweep of lengths: the cell's step, driven to its end, and perhaps a variation.
pub fn length(r: &mut Random, sink: &mut Sink, number: usize) {
    let role = ROLES[number % 2];
    let phase = (number / 2 % 11) as u8;
    let code = 1 + (number / 22 % 14) as u8;
    let mut length = LENGTHS[number / 22 / 14];
    if length == 255 {
        length = r.pick(&[255, 256, 256, 1000, 4095, 4096]);
    }
    let payload = machines::payload(r, code, Some(length));
    let given = build(r, role, phase, Input::Command(code), payload);
    let variations = r.below(2);
    emit_driven(r, sink, &given, variations);
}

/// The step with every beginning of its answers, something left over, and each answer spoilt.
fn emit_around(r: &mut Random, sink: &mut Sink, given: &Step) {
    let (mut records, mood) = (Vec::new(), mood(r));
    drive(r, given, &mut records, mood);
    vary::prefixes(sink, given, &records);
    vary::leftover(r, sink, given, &records);
    for at in 0..records.len() {
        vary::spoil_one(r, sink, given, &records, at);
    }
}

/// One cell of the grid: a phase and an input, its step wanting, ending and refused.
pub fn grid(r: &mut Random, sink: &mut Sink, number: usize) {
    let role = ROLES[number % 2];
    let phase = (number / 2 % 11) as u8;
    let (input, payload) = match number / 22 {
        code @ 0..14 => {
            let code = 1 + code as u8;
            let length = r.chance(35).then(|| r.below(21));
            (Input::Command(code), machines::payload(r, code, length))
        }
        other => (event(r, other - 14), Vec::new()),
    };
    let given = build(r, role, phase, input, payload);
    emit_around(r, sink, &given);
}

/// Payloads beyond which the Rust indexes: empty PairingFailed, features over 6 octets, identity
/// addresses under 7.
pub fn panics(r: &mut Random, sink: &mut Sink) {
    let role = r.pick(&ROLES);
    let (phase, code, length) = match (r.below(3), role) {
        (0, _) => (r.below(11) as u8, 0x05, 0),
        (1, Role::Central) => (0, 0x02, 7 + r.below(20)),
        (1, Role::Peripheral) => (0, 0x01, 7 + r.below(20)),
        _ => (7, 0x09, r.below(7)),
    };
    let payload = machines::payload(r, code, Some(length));
    let given = build(r, role, phase, Input::Command(code), payload);
    emit_around(r, sink, &given);
}

/// An input that the phase has a handler for, with its payload. Phase 9 and 10 make their entry
/// calls again.
fn handled(r: &mut Random, role: Role, phase: u8) -> (Input, Vec<u8>) {
    let code = match (phase, role) {
        (0, Role::Central) => 0x02,
        (0, Role::Peripheral) => 0x01,
        (1 | 3, _) => 0x03,
        (4, _) => 0x04,
        (6, _) => 0x08,
        (7, _) => 0x09,
        (8, _) => r.pick(&[0x06, 0x07, 0x07]),
        (9 | 10, _) => 0x0e,
        _ => 0,
    };
    let event_instead = match (phase, role) {
        (0, Role::Peripheral) => r.chance(25).then_some(1),
        (1, _) => r.chance(70).then_some(4),
        (2, _) => Some(5),
        (5, _) => Some(usize::from(r.chance(92))),
        (9 | 10, _) => r.chance(60).then(|| 2 + r.below(3)),
        _ => None,
    };
    match event_instead {
        Some(number) => (event(r, number), Vec::new()),
        None => {
            let length = near(r, code);
            (Input::Command(code), machines::payload(r, code, length))
        }
    }
}

/// Now and then a length next to the one that the command has.
fn near(r: &mut Random, code: u8) -> Option<usize> {
    let usual = machines::payload(r, code, None).len();
    r.chance(25).then(|| (usual + r.below(4)).saturating_sub(r.pick(&[1, 2])))
}

/// A step that a handler takes up.
fn rich(r: &mut Random) -> Step {
    let role = r.pick(&ROLES);
    let phase = r.pick(&[0, 0, 0, 1, 2, 3, 4, 4, 5, 5, 6, 7, 7, 8, 8, 9, 10]);
    let (input, payload) = handled(r, role, phase);
    build(r, role, phase, input, payload)
}

/// Damaged answers at every call of a step that makes some.
pub fn damaged(r: &mut Random, sink: &mut Sink) {
    let given = rich(r);
    let mut records = Vec::new();
    drive(r, &given, &mut records, Mood::Willing);
    if records.len() < 3 && r.chance(60) {
        return vary::emit(sink, &given, records.concat());
    }
    vary::everything(r, sink, &given, &records);
}

/// List lengths around the longest step, before and after the other refusals.
pub fn lists(r: &mut Random, sink: &mut Sink) {
    let mut given = rich(r);
    if r.chance(20) {
        given.input = Input::Command(r.octet());
    }
    let mut records = Vec::new();
    drive(r, &given, &mut records, Mood::Willing);
    let answers = match r.below(4) {
        0 => Vec::new(),
        1 => vec![0xff],
        _ => records.concat(),
    };
    let random = r.below(400);
    for list_len in [0, 1, 163, 164, 165, random] {
        vary::emit(sink, &Step { list_len, ..given.clone() }, answers.clone());
    }
    let (zeros, long) = (r.chance(20), r.chance(20));
    given.answers = answers;
    if zeros {
        leading_zeros(sink, &given);
    }
    if long {
        sink.step(&Step { list_len: 4096, ..given });
    }
}

/// List lengths of four digits that begin with zeros.
fn leading_zeros(sink: &mut Sink, given: &Step) {
    for list_len in [0, 9, 163, 164] {
        let mut line = Vec::new();
        lines::push_step(&mut line, &Step { list_len, ..given.clone() });
        let digits = list_len.to_string().len();
        line.splice(2..2, vec![b'0'; 4 - digits]);
        sink.raw(&line);
    }
}

/// One command code of 256, with some payload.
pub fn code(r: &mut Random, sink: &mut Sink, code: u8) {
    let length = r.below(21);
    let payload = machines::payload(r, code, Some(length));
    let (role, phase) = (r.pick(&ROLES), r.below(11) as u8);
    let given = build(r, role, phase, Input::Command(code), payload);
    emit_driven(r, sink, &given, 0);
}

/// A random machine and a random input.
pub fn random(r: &mut Random, sink: &mut Sink) {
    let (role, phase) = (r.pick(&ROLES), r.below(11) as u8);
    let (input, payload) = if r.chance(65) {
        handled(r, role, phase)
    } else if r.chance(50) {
        let number = r.below(6);
        (event(r, number), Vec::new())
    } else {
        let code = 1 + r.below(14) as u8;
        (Input::Command(code), machines::payload(r, code, None))
    };
    let given = build(r, role, phase, input, payload);
    emit_driven(r, sink, &given, 2);
}

/// Right and wrong confirm values in WaitingPairingRandom, at every key size.
pub fn confirm(r: &mut Random, sink: &mut Sink) {
    let role = r.pick(&ROLES);
    let payload = r.some(16);
    let mut given = build(r, role, 4, Input::Command(0x04), payload);
    if r.chance(50) {
        given.machine[machine::LOCAL_FEATURES + 3] = r.below(18) as u8;
        given.machine[machine::PEER_FEATURES + 3] = r.below(18) as u8;
    }
    let mut records = Vec::new();
    let mood = mood(r);
    drive(r, &given, &mut records, mood);
    vary::prefixes(sink, &given, &records);
}
