//! A terminal and a head, of the archive or of the Rust, their hosts, and the link between them.

use legacy_pairing::{size, Machine, Outcome};
use reference::native::{self, Answers, Draws};
use reference::{Input, Role};

/// An end's fixed host: what it begins with, and what it answers and draws.
pub struct Side {
    pub role: Role,
    pub features: [u8; 6],
    pub own: [u8; 7],
    pub peer: [u8; 7],
    irk: [u8; 16],
    draws: Draws,
    answers: Answers,
}

fn counting<const N: usize>(first: u8) -> [u8; N] {
    core::array::from_fn(|i| first + i as u8)
}

pub const PASSKEY: u32 = 204_518;
pub const OOB: [u8; 16] = *b"out of band data";

impl Side {
    pub fn new(role: Role, features: [u8; 6]) -> Self {
        let addresses = [[0, 0x10, 0x11, 0x12, 0x13, 0x14, 0x15], [1, 0x20, 0x21, 0x22, 0x23, 0x24, 0xe5]];
        let (own, peer, first) = match role {
            Role::Central => (addresses[0], addresses[1], 0xa0),
            Role::Peripheral => (addresses[1], addresses[0], 0xb0),
        };
        let irk = counting(first);
        // The least word of which the texts draw this passkey.
        let word = (u64::from(PASSKEY) << 32).div_ceil(1_000_000) as u32;
        let draws = Draws { octets: counting(first ^ 0x70), word };
        let answers = Answers::new(irk, &own, &peer, features[2] & 3 == 1, features[1] == 1);
        Self { role, features, own, peer, irk, draws, answers }
    }

    /// The answer to a call, as document 01 writes it: the same that `Answers` and `Draws` give.
    fn answer(&self, kind: u8, body: &[u8], out: &mut Octets) {
        out.push(&[kind]);
        match kind {
            0x30 => out.push(&[0]),
            0x31 => out.push(&self.irk),
            0x32 => {
                out.push(&[0]);
                out.push(&self.own);
            }
            0x33 => out.push(&[u8::from(self.features[2] & 3 == 1)]),
            0x34 => out.push(&[self.features[1]]),
            0x35 | 0x37 => out.push(&self.draws.octets),
            0x36 => out.push(&PASSKEY.to_le_bytes()),
            0x38 => out.push(&(self.draws.word as u16).to_le_bytes()),
            0x39 => out.push(&self.draws.octets[..8]),
            0x3a => {
                // Done, and the bond of this key: no EDIV, Rand or IRK, not bonded.
                let mut bond = [0; 52];
                bond[1..17].copy_from_slice(&body[..16]);
                bond[28] = body[16];
                bond[45..].copy_from_slice(&self.peer);
                out.push(&bond);
            }
            _ => out.push(&[0]),
        }
    }
}

/// Up to 256 octets, for the answers to a step.
#[derive(Clone, Copy)]
pub struct Octets {
    octets: [u8; 256],
    len: usize,
}

impl Octets {
    const NONE: Self = Self { octets: [0; 256], len: 0 };

    fn push(&mut self, more: &[u8]) {
        self.octets[self.len..][..more.len()].copy_from_slice(more);
        self.len += more.len();
    }

    pub fn as_slice(&self) -> &[u8] {
        &self.octets[..self.len]
    }
}

#[derive(Clone, Copy, PartialEq)]
enum Due {
    NotYet,
    Now,
    Had,
}

#[derive(Clone, Copy, Debug, PartialEq)]
pub struct Packet {
    code: u8,
    len: usize,
    octets: [u8; 16],
}

/// What an end has given out: its packets, which the other takes in order, its call for encryption, and what is due.
pub struct Desk {
    packets: [Packet; 8],
    sent: usize,
    taken: usize,
    passkey: Due,
    oob: Due,
    report: Due,
    encryption: [u8; 18],
}

impl Desk {
    pub fn new() -> Self {
        let none = Packet { code: 0, len: 0, octets: [0; 16] };
        let due = Due::NotYet;
        Self { packets: [none; 8], sent: 0, taken: 0, passkey: due, oob: due, report: due, encryption: [0; 18] }
    }

    /// Forgets the packets, so that a step can be run again and again.
    pub fn clear(&mut self) {
        self.sent = 0;
    }

    pub fn packets(&self) -> &[Packet] {
        &self.packets[..self.sent]
    }

    pub fn encryption(&self) -> &[u8; 18] {
        &self.encryption
    }
}

impl native::Desk for Desk {
    fn packet(&mut self, code: u8, payload: &[u8]) {
        let packet = &mut self.packets[self.sent];
        packet.code = code;
        packet.len = payload.len();
        packet.octets[..payload.len()].copy_from_slice(payload);
        self.sent += 1;
    }

    fn event(&mut self, kind: u8) {
        let due = if kind == 0x23 { &mut self.passkey } else { &mut self.oob };
        if *due == Due::NotYet {
            *due = Due::Now;
        }
    }

    fn encryption(&mut self, key: &[u8; 16], level: u8, key_size: u8) {
        self.encryption[..16].copy_from_slice(key);
        self.encryption[16] = level;
        self.encryption[17] = key_size;
        if self.report == Due::NotYet {
            self.report = Due::Now;
        }
    }
}

/// A machine with its way of being stepped. `answers` are those of the whole step.
pub trait End {
    fn begin(side: &Side) -> Self;
    fn step(&mut self, input: Input, payload: &[u8], answers: &[u8], side: &Side, desk: &mut Desk);
    fn record(&self) -> [u8; 161];
}

fn port_role(role: Role) -> legacy_pairing::Role {
    match role {
        Role::Central => legacy_pairing::Role::Terminal,
        Role::Peripheral => legacy_pairing::Role::Head,
    }
}

pub fn port_input(input: Input, payload: &[u8]) -> legacy_pairing::Input<'_> {
    match input {
        Input::Command(code) => legacy_pairing::Input::Command(code, payload),
        Input::LinkEncryptedResult(on) => legacy_pairing::Input::LinkEncryptedResult(on),
        Input::PassKeyConfirm => legacy_pairing::Input::PassKeyConfirm,
        Input::PassKeyCancel => legacy_pairing::Input::PassKeyCancel,
        Input::PassKeyInput(passkey) => legacy_pairing::Input::PassKeyInput(passkey),
        Input::OobDataReceived(random) => legacy_pairing::Input::OobDataReceived(random),
    }
}

/// The octets of a call's body.
fn body_length(kind: u8) -> usize {
    match kind {
        0x02 => 6,
        0x03 | 0x04 | 0x06 | 0x08 => 16,
        0x07 => 10,
        0x09 => 7,
        0x20 => 2,
        0x21 => 53,
        0x22 => 4,
        0x3a => 18,
        0x3c => 51,
        _ => 0,
    }
}

/// Gives the calls of a list to the desk.
fn deal(list: &[u8], desk: &mut Desk) {
    use native::Desk;
    let mut at = 0;
    while at < list.len() {
        let kind = list[at];
        let body = &list[at + 1..][..body_length(kind)];
        match kind {
            0x02..=0x09 => desk.packet(kind, body),
            0x23 | 0x25 => desk.event(kind),
            0x3a => desk.encryption(body[..16].try_into().expect("16"), body[16], body[17]),
            _ => {}
        }
        at += 1 + body.len();
    }
}

/// The archive's machine, and a call list for its steps: each step is run once, with all answers.
pub struct Port {
    pub machine: Machine,
    list: [u8; size::CALL_LIST],
}

impl End for Port {
    fn begin(side: &Side) -> Self {
        let machine = Machine::new(port_role(side.role), &side.own, &side.peer, &side.features);
        Self { machine: machine.expect("features that are read"), list: [0; size::CALL_LIST] }
    }

    fn step(&mut self, input: Input, payload: &[u8], answers: &[u8], _: &Side, desk: &mut Desk) {
        let stepped =
            self.machine.step(port_input(input, payload), answers, &mut self.list).expect("no step is refused");
        assert!(stepped.outcome == Outcome::Ended && stepped.read == answers.len());
        deal(&self.list[..stepped.written], desk);
    }

    fn record(&self) -> [u8; 161] {
        *self.machine.record()
    }
}

/// The archive's machine, run again with one answer more until the step ends.
pub struct Asking {
    machine: Machine,
    pub answers: Octets,
    /// The calls of the last step.
    pub list: [u8; size::CALL_LIST],
    pub written: usize,
}

impl End for Asking {
    fn begin(side: &Side) -> Self {
        Self { machine: Port::begin(side).machine, answers: Octets::NONE, list: [0; size::CALL_LIST], written: 0 }
    }

    fn step(&mut self, input: Input, payload: &[u8], _: &[u8], side: &Side, desk: &mut Desk) {
        self.answers.len = 0;
        loop {
            let step = self.machine.step(port_input(input, payload), self.answers.as_slice(), &mut self.list);
            let stepped = step.expect("no step is refused");
            self.written = stepped.written;
            if stepped.outcome == Outcome::Ended {
                deal(&self.list[..stepped.written], desk);
                return;
            }
            let (kind, body) = last_call(&self.list[..stepped.written]);
            side.answer(kind, body, &mut self.answers);
        }
    }

    fn record(&self) -> [u8; 161] {
        *self.machine.record()
    }
}

/// The kind and the body of the last call of a list.
fn last_call(list: &[u8]) -> (u8, &[u8]) {
    let mut at = 0;
    loop {
        let (kind, end) = (list[at], at + 1 + body_length(list[at]));
        if end >= list.len() {
            return (kind, &list[at + 1..end]);
        }
        at = end;
    }
}

/// The Rust's machine.
#[derive(Clone)]
pub struct Rust(native::Machine);

impl End for Rust {
    fn begin(side: &Side) -> Self {
        Self(native::Machine::new(side.role, &side.own, &side.peer, &side.features))
    }

    fn step(&mut self, input: Input, payload: &[u8], _: &[u8], side: &Side, desk: &mut Desk) {
        let mut draws = side.draws;
        self.0.step(input, payload, &side.answers, &mut draws, desk);
    }

    fn record(&self) -> [u8; 161] {
        self.0.record()
    }
}

/// Sees every turn of a pairing: the input that an end gets, before and after its step.
pub trait Watch<E> {
    fn before(&mut self, _at: usize, _input: Input, _payload: &[u8], _end: &E) {}
    fn after(&mut self, _end: &E) {}
}

pub struct Nobody;

impl<E> Watch<E> for Nobody {}

/// Two ends and what lies between them; index 0 is the terminal, 1 the head.
pub struct Link<E> {
    pub ends: [E; 2],
    pub desks: [Desk; 2],
    pub turns: usize,
}

impl<E: End> Link<E> {
    fn begin(sides: &[Side; 2]) -> Self {
        use native::Desk as _;
        let ends = [E::begin(&sides[0]), E::begin(&sides[1])];
        let mut desks = [Desk::new(), Desk::new()];
        desks[0].packet(0x01, &sides[0].features);
        Self { ends, desks, turns: 0 }
    }

    /// The next input of an end, if there is one: the report, an entry if these are allowed now, the oldest packet.
    fn next(&mut self, at: usize, entries: bool) -> Option<(Input, Packet)> {
        let none = Packet { code: 0, len: 0, octets: [0; 16] };
        let peer_had_oob = self.desks[1 - at].oob == Due::Had;
        let own = &mut self.desks[at];
        if own.report == Due::Now {
            own.report = Due::Had;
            return Some((Input::LinkEncryptedResult(true), none));
        }
        if entries && own.passkey == Due::Now {
            own.passkey = Due::Had;
            return Some((Input::PassKeyInput(PASSKEY), none));
        }
        if entries && own.oob == Due::Now && (at == 1 || peer_had_oob) {
            own.oob = Due::Had;
            return Some((Input::OobDataReceived(OOB), none));
        }
        let other = &mut self.desks[1 - at];
        let packet = *other.packets().get(other.taken)?;
        other.taken += 1;
        Some((Input::Command(packet.code), packet))
    }

    fn take(&mut self, at: usize, entries: bool, case: &Case, watch: &mut impl Watch<E>) -> bool {
        let Some((input, packet)) = self.next(at, entries) else {
            return false;
        };
        let payload = &packet.octets[..packet.len];
        let answers = case.answers.get(self.turns).map_or(&[][..], |a| a);
        watch.before(at, input, payload, &self.ends[at]);
        self.ends[at].step(input, payload, answers, &case.sides[at], &mut self.desks[at]);
        watch.after(&self.ends[at]);
        self.turns += 1;
        true
    }

    /// Plays a pairing to its end. The head goes first; with `late_entries` only where nothing else is left.
    #[inline(never)]
    pub fn play(case: &Case, watch: &mut impl Watch<E>) -> Self {
        let mut link = Self::begin(&case.sides);
        let early = !case.late_entries;
        while link.take(1, early, case, watch)
            || link.take(0, early, case, watch)
            || !early && (link.take(1, true, case, watch) || link.take(0, true, case, watch))
        {}
        link
    }
}

/// A pairing: its two sides, and the answers of each turn, which `Asking` finds.
pub struct Case {
    pub name: &'static str,
    pub sides: [Side; 2],
    pub late_entries: bool,
    pub answers: Vec<Vec<u8>>,
}
