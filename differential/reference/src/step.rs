//! One step: the refusals, the Rust's `handle_input`, and document 01's answer where it panics.

use std::cell::Cell;
use std::panic::{catch_unwind, AssertUnwindSafe};
use std::sync::Once;

pub use crate::host::Cause;
use crate::host::{Host, Leave};
use crate::machine::{self, Record};
use crate::security_manager::pairing::record;

#[derive(Clone, Copy, Debug, PartialEq, Eq)]
pub enum Role {
    /// The terminal.
    Central,
    /// The head.
    Peripheral,
}

/// A command code, or an event with its data.
#[derive(Clone, Copy, Debug, PartialEq, Eq)]
pub enum Input {
    Command(u8),
    LinkEncryptedResult(bool),
    PassKeyConfirm,
    PassKeyCancel,
    PassKeyInput(u32),
    OobDataReceived([u8; 16]),
}

/// What a step is given. The record is canonical.
#[derive(Clone, Debug)]
pub struct Step {
    pub role: Role,
    pub list_len: usize,
    pub machine: Record,
    pub input: Input,
    pub payload: Vec<u8>,
    pub answers: Vec<u8>,
}

#[derive(Clone, Copy, Debug, PartialEq, Eq)]
pub enum Outcome {
    Ended,
    Wants,
    Refused(u8),
}

/// What a step gives back.
#[derive(Clone, Debug)]
pub struct Answer {
    /// The name of the panic, where the Rust panics; the rest is then document 01's answer.
    pub panicked: Option<&'static str>,
    pub outcome: Outcome,
    pub read: usize,
    pub written: usize,
    pub machine: Record,
    pub list: Vec<u8>,
    /// For refusal 3, the call reached and what was wrong with its answer. Not printed.
    pub refusal: Option<(u8, Cause)>,
}

/// The longest step's calls, in octets.
pub const LONGEST: usize = 164;

/// What every octet of the list is before the step.
pub const UNTOUCHED: u8 = 0xee;

thread_local! {
    /// Whether the Rust is running, so that a panic is caught and named.
    static INSIDE: Cell<bool> = const { Cell::new(false) };
}

/// Silences the messages of panics inside a step; others are printed as before.
pub fn silence_panics() {
    static ONCE: Once = Once::new();
    ONCE.call_once(|| {
        let before = std::panic::take_hook();
        std::panic::set_hook(Box::new(move |info| {
            if !INSIDE.get() {
                before(info);
            }
        }));
    });
}

/// Runs a part of a step: its result, the way the host left, or none where something else panicked.
fn caught<T>(run: impl FnOnce() -> T) -> Option<Result<T, Leave>> {
    INSIDE.set(true);
    let result = catch_unwind(AssertUnwindSafe(run));
    INSIDE.set(false);
    match result {
        Ok(value) => Some(Ok(value)),
        Err(thrown) => thrown.downcast::<Leave>().ok().map(|leave| Err(*leave)),
    }
}

/// Runs a step as document 01 says: refusals 1 and 2, then the machine.
pub fn step(given: &Step) -> Answer {
    if given.list_len < LONGEST {
        return refused(given, 1, None);
    }
    if matches!(given.input, Input::Command(code) if !(0x01..=0x0e).contains(&code)) {
        return refused(given, 2, None);
    }
    let host = Host::new(given.machine[machine::PHASE], &given.answers);
    let run = || record::handle_input(given.role, &given.machine, given.input, &given.payload, &host);
    match caught(run) {
        Some(end) => conclude(given, host, None, end),
        None => panicked(given, host),
    }
}

fn refused(given: &Step, number: u8, refusal: Option<(u8, Cause)>) -> Answer {
    Answer {
        panicked: None,
        outcome: Outcome::Refused(number),
        read: 0,
        written: 0,
        machine: given.machine,
        list: vec![UNTOUCHED; given.list_len],
        refusal,
    }
}

/// A panic that document 01 does not know, or calls longer than its longest step: what follows the
/// name is no answer of anyone.
fn unknown(given: &Step) -> Answer {
    Answer { panicked: Some("unknown"), ..refused(given, 3, None) }
}

/// The answer, from the host's desk and the machine returned or the way the host left.
fn conclude(given: &Step, host: Host, panicked: Option<&'static str>, end: Result<Record, Leave>) -> Answer {
    let (outcome, machine) = match end {
        Ok(machine) => (Outcome::Ended, machine),
        Err(Leave::Wants) => (Outcome::Wants, given.machine),
        Err(Leave::Refused(call, cause)) => {
            return Answer { panicked, ..refused(given, 3, Some((call, cause))) };
        }
    };
    let (read, mut list) = host.counts();
    let written = list.len();
    if written > LONGEST {
        return unknown(given);
    }
    list.resize(given.list_len, UNTOUCHED);
    Answer { panicked, outcome, read, written, machine, list, refusal: None }
}

/// The panics that document 01 knows, with the failed body it gives there.
///
/// "Where the Rust indexes beyond the payload: empty PairingFailed gives UnspecifiedReason; a
/// request or response over 6 octets InvalidParameters, after any BondLost, pairing data unchanged;
/// an identity address under 7 InvalidValue."
fn known_panic(given: &Step) -> Option<(&'static str, [u8; 2])> {
    let Input::Command(code) = given.input else {
        return None;
    };
    let first = match given.role {
        Role::Central => 0x02,
        Role::Peripheral => 0x01,
    };
    let length = given.payload.len();
    match (given.machine[machine::PHASE], code) {
        (_, 0x05) if length == 0 => Some(("empty-pairing-failed", [1, 0x08])),
        (0, code) if code == first && length > 6 => Some(("long-features", [1, 0x0a])),
        (7, 0x09) if length < 7 => Some(("short-identity-address", [3, 0])),
        _ => None,
    }
}

/// Document 01's answer where the Rust panics: the calls listed so far, then Error is entered with
/// its call 0x20; the pairing data stay as they were.
fn panicked(given: &Step, host: Host) -> Answer {
    let Some((name, [kind, detail])) = known_panic(given) else {
        return unknown(given);
    };
    let mut error = given.machine;
    error[machine::PHASE] = 10;
    error[machine::DETAIL] = kind;
    error[machine::REASON] = detail;
    error[machine::STORED] = 0;
    machine::clear_unheld(given.role, &mut error);
    match caught(|| host.pairing_failed(kind, detail)) {
        Some(end) => conclude(given, host, Some(name), end.map(|()| error)),
        None => unknown(given),
    }
}
