//! Short ways to write a step that is there for one thing, and what its answer has to show.

use cases::answers::wanted;
use reference::machine::{self, Record};
use reference::{calls, lines, step, Answer, Input, Outcome, Role, Step};

pub const ROLES: [(Role, &str); 2] = [(Role::Central, "terminal"), (Role::Peripheral, "head")];

/// What an answer has to show.
#[derive(Clone, Debug)]
pub enum Shows {
    /// Ended with these first three octets of the machine: phase, kind and detail of an error.
    State([u8; 3]),
    /// Refused with this number.
    Refused(u8),
    /// Exactly these calls.
    Calls(Vec<u8>),
    /// A call of this kind whose body has these octets at a place.
    Body(u8, usize, Vec<u8>),
    /// A machine that has these octets at a place.
    Machine(usize, Vec<u8>),
}

pub struct Named {
    pub name: String,
    pub given: Step,
    pub shows: Vec<Shows>,
}

impl Named {
    pub fn line(&self) -> Vec<u8> {
        let mut line = Vec::new();
        lines::push_step(&mut line, &self.given);
        line
    }

    /// Whether the Rust's answer shows what it has to; else what it does not show.
    pub fn holds(&self) -> Result<(), String> {
        let answer = step(&self.given);
        let missing = self.shows.iter().find(|shows| !shows.holds(&answer));
        missing.map_or(Ok(()), |shows| Err(format!("{}: {shows:?}", self.name)))
    }
}

impl Shows {
    fn holds(&self, answer: &Answer) -> bool {
        let listed = calls::records(&answer.list[..answer.written]).unwrap_or_default();
        match self {
            Self::State(state) => answer.outcome == Outcome::Ended && answer.machine.starts_with(state),
            Self::Refused(number) => answer.outcome == Outcome::Refused(*number),
            Self::Calls(kinds) => listed.iter().map(|(kind, _)| kind.code).eq(kinds.iter().copied()),
            Self::Body(code, at, octets) => {
                listed.iter().any(|(kind, body)| kind.code == *code && body[*at..].starts_with(octets))
            }
            Self::Machine(at, octets) => answer.machine[*at..].starts_with(octets),
        }
    }
}

/// Octets that count up.
pub fn count_up<const N: usize>(from: u8) -> [u8; N] {
    core::array::from_fn(|i| from.wrapping_add(i as u8))
}

/// A bond with octets that are all told apart, not bonded, of level 1.
pub fn bond() -> [u8; calls::BOND] {
    let mut bond = count_up(0x40);
    (bond[26], bond[27], bond[44]) = (0, 1, 0);
    bond
}

/// A machine of a phase whose fields are all told apart; both bond, both name all keys, there is a bond. Error is
/// InvalidState, ReceivingKeys waits for the CentralIdentification.
pub fn machine(role: Role, phase: u8) -> Record {
    let mut m = [0; machine::LENGTH];
    m[machine::PHASE] = phase;
    m[machine::DETAIL] = match phase {
        8 => 1,
        10 => 2,
        _ => 0,
    };
    let request = [4, 0, 5, 16, 3, 3];
    let response = [4, 0, 5, 14, 3, 3];
    let (local, peer) = if role == Role::Central { (request, response) } else { (response, request) };
    let fields: [(usize, &[u8]); 11] = [
        (machine::PREQ, &[&[0x01][..], &request].concat()),
        (machine::PRES, &[&[0x02][..], &response].concat()),
        (machine::TK, &count_up::<16>(0x10)),
        (machine::LOCAL_NONCE, &count_up::<16>(0x20)),
        (machine::RECEIVED_LTK, &count_up::<16>(0x30)),
        (machine::LOCAL_ADDRESS, &[0, 0xa1, 0xa2, 0xa3, 0xa4, 0xa5, 0xa6]),
        (machine::PEER_ADDRESS, &[1, 0xb1, 0xb2, 0xb3, 0xb4, 0xb5, 0xb6]),
        (machine::LOCAL_FEATURES, &local),
        (machine::PEER_FEATURES, &peer),
        (machine::METHOD, &[4, 1]),
        (machine::BOND, &bond()),
    ];
    for (at, octets) in fields {
        m = with(m, at, octets);
    }
    machine::clear_unheld(role, &mut m);
    m
}

/// The machine before a pairing: no bond.
pub fn unbonded(m: Record) -> Record {
    with(m, machine::BOND_PRESENT, &[0; 1 + calls::BOND])
}

pub fn with(mut m: Record, at: usize, octets: &[u8]) -> Record {
    m[at..at + octets.len()].copy_from_slice(octets);
    m
}

/// A step on 164 octets, without answers yet.
pub fn given(role: Role, machine: Record, input: Input, payload: &[u8]) -> Step {
    Step { role, list_len: step::LONGEST, machine, input, payload: payload.into(), answers: Vec::new() }
}

/// An answer with octets that are told apart: verdicts are 0, flags 0, a passkey is 999,999.
fn plain(code: u8) -> Vec<u8> {
    let body = match code {
        0x31 => count_up::<16>(0x90).to_vec(),
        0x32 => vec![0, 1, 0xd1, 0xd2, 0xd3, 0xd4, 0xd5, 0xd6],
        0x35 => count_up::<16>(0x60).to_vec(),
        0x36 => 999_999u32.to_le_bytes().to_vec(),
        0x37 => count_up::<16>(0x70).to_vec(),
        0x38 => vec![0x81, 0x82],
        0x39 => count_up::<8>(0x83).to_vec(),
        0x3a => [&[0][..], &bond()].concat(),
        0x3b => [&[0, 1][..], &bond()].concat(),
        _ => vec![0],
    };
    [vec![code], body].concat()
}

/// The step with answers up to its end: the special ones where their kind is asked for, each once, else plain ones.
pub fn answered(mut given: Step, special: &[&[u8]]) -> Step {
    let mut left = special.to_vec();
    while let Some(code) = wanted(&step(&given)) {
        match left.iter().position(|record| record[0] == code) {
            Some(at) => given.answers.extend(left.remove(at)),
            None => given.answers.extend(plain(code)),
        }
    }
    given
}

pub fn named(name: impl Into<String>, given: Step, shows: &[Shows]) -> Named {
    Named { name: name.into(), given, shows: shows.to_vec() }
}
