//! The legacy pairing machines of a quay terminal (central) and a scale's radio head (peripheral), proved in
//! Rattle and linked from liblegacy_pairing.a. This crate is safe to use, and allocates nothing.
//!
//! A machine is one end of one pairing. Each packet from the peer and each event is an input, and each input
//! a [step](Machine::step), which lists calls: packets to send, events to tell, questions, draws. A step that
//! wants an answer to its last call is run again with that answer added. Octet strings run least significant
//! octet first, as on the air.
//!
//! A whole pairing of two ends, Just Works and without bonds:
//!
//! ```
//! use legacy_pairing::{address, auth, bond, call, command, features, io, level, size, verdict, NO};
//! use legacy_pairing::{call_at, count_calls, write_features};
//! use legacy_pairing::{Features, Input, Machine, Outcome, Refusal, Role, Status};
//!
//! /// An end: its machine, the packets that it has sent, and whether it has called for encryption.
//! struct End {
//!     machine: Machine,
//!     sent: Vec<(u8, Vec<u8>)>,
//!     encrypts: bool,
//! }
//!
//! impl End {
//!     fn new(machine: Machine) -> Self {
//!         Self { machine, sent: Vec::new(), encrypts: false }
//!     }
//!
//!     /// Does what a call asks for, and gives the body of the answer.
//!     fn answer(&mut self, kind: u8, body: &[u8]) -> Vec<u8> {
//!         match kind {
//!             call::SEND_PAIRING_RESPONSE..=call::SEND_IDENTITY_ADDRESS_INFORMATION => {
//!                 self.sent.push((kind, body.to_vec()));
//!                 vec![verdict::DONE]
//!             }
//!             call::ASK_FIND_BOND | call::ASK_BONDING_FLAG | call::ASK_OOB_AVAILABLE => vec![NO],
//!             call::DRAW_NONCE => vec![7; call::DRAW_NONCE_ANSWER_SIZE], // a host draws it at random
//!             call::ENABLE_ENCRYPTION => {
//!                 self.encrypts = true;
//!                 // The bond of this key. It has the peer's address too, which is left out here.
//!                 let mut answer = vec![0; call::ENABLE_ENCRYPTION_ANSWER_SIZE];
//!                 answer[verdict::OFFSET] = verdict::DONE;
//!                 let held = &mut answer[call::ENABLE_ENCRYPTION_ANSWER_BOND_OFFSET..];
//!                 held[bond::LTK_OFFSET..][..size::VALUE]
//!                     .copy_from_slice(&body[call::ENABLE_ENCRYPTION_BODY_KEY_OFFSET..][..size::VALUE]);
//!                 held[bond::LEVEL_OFFSET] = body[call::ENABLE_ENCRYPTION_BODY_LEVEL_OFFSET];
//!                 answer
//!             }
//!             // Events. The other questions and draws are not reached without bonds and passkeys.
//!             _ => vec![verdict::DONE],
//!         }
//!     }
//!
//!     /// A step, run again with one answer more until it ends.
//!     fn give(&mut self, input: Input) -> Result<(), Refusal> {
//!         let (mut answers, mut list) = (Vec::new(), [0; size::CALL_LIST]);
//!         loop {
//!             let stepped = self.machine.step(input, &answers, &mut list)?;
//!             if stepped.outcome == Outcome::Ended {
//!                 return Ok(());
//!             }
//!             // The last call is new; those before it have their answers.
//!             let calls = &list[..stepped.written];
//!             let new = call_at(calls, count_calls(calls)? - 1)?;
//!             answers.push(new.kind);
//!             answers.extend(self.answer(new.kind, new.body));
//!         }
//!     }
//! }
//!
//! /// Gives what one end has sent to the other.
//! fn deliver(from: &mut End, to: &mut End) -> Result<(), Refusal> {
//!     for (code, payload) in std::mem::take(&mut from.sent) {
//!         to.give(Input::Command(code, &payload))?;
//!     }
//!     Ok(())
//! }
//!
//! # fn main() -> Result<(), Refusal> {
//! assert_eq!(legacy_pairing::version(), legacy_pairing::VERSION);
//!
//! let payload = write_features(Features {
//!     io: io::NO_INPUT_NO_OUTPUT,
//!     oob: NO,
//!     auth_req: 0,
//!     key_size: size::LARGEST_KEY as u8,
//!     initiator_keys: 0,
//!     responder_keys: 0,
//! })?;
//! assert_eq!(payload[features::AUTH_REQ_OFFSET] & auth::BONDING_MASK, 0, "no bond is asked for");
//! let quay = [address::PUBLIC, 1, 2, 3, 4, 5, 6];
//! let scale = [address::RANDOM, 7, 8, 9, 10, 11, 12];
//! let mut terminal = End::new(Machine::new(Role::Terminal, &quay, &scale, &payload)?);
//! let mut head = End::new(Machine::new(Role::Head, &scale, &quay, &payload)?);
//!
//! // The terminal's host sends the request itself. Response, confirm values and nonces follow.
//! head.give(Input::Command(command::PAIRING_REQUEST, &payload))?;
//! while !head.sent.is_empty() {
//!     deliver(&mut head, &mut terminal)?;
//!     deliver(&mut terminal, &mut head)?;
//! }
//! assert!(terminal.encrypts && head.encrypts);
//!
//! // The controllers encrypt the link, and say so.
//! terminal.give(Input::LinkEncryptedResult(true))?;
//! head.give(Input::LinkEncryptedResult(true))?;
//! let paired = Status { result: Some(Ok(())), is_encrypted: true, level: level::ENCRYPTED };
//! assert_eq!(terminal.machine.status(), Ok(paired));
//! assert_eq!(head.machine.status(), Ok(paired));
//! # Ok(())
//! # }
//! ```

#![no_std]
#![warn(missing_debug_implementations)]

mod numbers;
mod sys;

pub use numbers::*;

use core::fmt;
use numbers::{input, outcome, result, role};

/// The kind, then the six octets of the address.
pub type Address = [u8; size::ADDRESS];

/// The version of the linked library. Where it is not [`VERSION`], the numbers and sizes of this crate may be
/// those of another library.
pub fn version() -> u32 {
    // SAFETY: nothing is passed.
    unsafe { sys::legacy_pairing_version() }
}

/// A refusal by its number, one of [`refusal`].
#[derive(Clone, Copy, Debug, PartialEq, Eq)]
pub struct Refusal(pub u8);

impl fmt::Display for Refusal {
    fn fmt(&self, f: &mut fmt::Formatter<'_>) -> fmt::Result {
        let what = match self.0 {
            refusal::LIST_TOO_SHORT => "the call list is shorter than the longest step's calls",
            refusal::NO_COMMAND => "no command has this code",
            refusal::BAD_ANSWER => "an answer has another kind, a cut body or a forbidden value",
            refusal::FEATURES_CUT => "features have fewer than six octets",
            refusal::BAD_FEATURES => "features have an I/O, an OOB or a key size that is none",
            refusal::BAD_CALL_LIST => "the call list has an unknown kind or a cut body",
            refusal::MACHINE_LENGTH => "the machine's record has another length",
            refusal::MACHINE_PHASE => "the machine's record has no phase",
            refusal::MACHINE_FEATURES => "the machine's record has no features",
            refusal::MACHINE_METHOD => "the machine's record has no method",
            refusal::MACHINE_BOND => "the machine's record has no bond",
            refusal::NOT_CANONICAL => "the machine's record is not zero where its machine holds nothing",
            refusal::NO_ROLE => "no role has this number",
            refusal::NO_INPUT => "no input has this number",
            refusal::BAD_EVENT => "an event's data have another length or a forbidden value",
            refusal::WRONG_LENGTH => "an octet string has another length",
            refusal::NO_CALL => "there is no call at this index",
            _ => "no refusal has this number",
        };
        write!(f, "refused by {}: {what}", self.0)
    }
}

impl core::error::Error for Refusal {}

/// Done, or a refusal.
fn done(number: u8) -> Result<(), Refusal> {
    if number == outcome::DONE {
        Ok(())
    } else {
        Err(Refusal(number))
    }
}

#[derive(Clone, Copy, Debug, PartialEq, Eq)]
pub enum Role {
    Terminal,
    Head,
}

impl Role {
    fn number(self) -> u8 {
        match self {
            Role::Terminal => role::TERMINAL,
            Role::Head => role::HEAD,
        }
    }
}

/// An input of a step: a packet's command code with its payload, or an event.
///
/// It is `Copy`, since a step that wants is given the same input again. It has no `PartialEq`, since
/// payloads, passkeys and out-of-band values are or make keys; its `Debug` shows none of them.
#[derive(Clone, Copy)]
pub enum Input<'a> {
    Command(u8, &'a [u8]),
    LinkEncryptedResult(bool),
    PassKeyConfirm,
    PassKeyCancel,
    PassKeyInput(u32),
    OobDataReceived([u8; size::VALUE]),
}

impl fmt::Debug for Input<'_> {
    fn fmt(&self, f: &mut fmt::Formatter<'_>) -> fmt::Result {
        match self {
            Input::Command(code, payload) => write!(f, "Command({code:#04x}, {} octets)", payload.len()),
            Input::LinkEncryptedResult(on) => write!(f, "LinkEncryptedResult({on})"),
            Input::PassKeyConfirm => f.write_str("PassKeyConfirm"),
            Input::PassKeyCancel => f.write_str("PassKeyCancel"),
            Input::PassKeyInput(_) => f.write_str("PassKeyInput(..)"),
            Input::OobDataReceived(_) => f.write_str("OobDataReceived(..)"),
        }
    }
}

#[derive(Clone, Copy, Debug, PartialEq, Eq)]
pub enum Outcome {
    /// The machine is the new one.
    Ended,
    /// The last call on the list has no answer; the machine is as it was.
    Wants,
}

/// What a step came to, and the octets of answers read and of the list written.
#[derive(Clone, Copy, Debug, PartialEq, Eq)]
pub struct Stepped {
    pub outcome: Outcome,
    pub read: usize,
    pub written: usize,
}

/// Why a pairing has failed: its kind, one of [`failure`], and its detail.
#[derive(Clone, Copy, Debug, PartialEq, Eq)]
pub struct Failure {
    pub kind: u8,
    /// A [`reason`], or the host's verdict; 0 where the kind has none.
    pub detail: u8,
}

impl fmt::Display for Failure {
    fn fmt(&self, f: &mut fmt::Formatter<'_>) -> fmt::Result {
        match self.kind {
            failure::SECURITY => write!(f, "the pairing failed: reason {:#04x}", self.detail),
            failure::INVALID_STATE => f.write_str("the pairing failed: an input that was not expected"),
            failure::INVALID_VALUE => f.write_str("the pairing failed: a value of the peer's that is none"),
            failure::OUT_OF_MEMORY => f.write_str("the pairing failed: the host is out of memory"),
            failure::HOST => write!(f, "the pairing failed: the host's verdict {:#04x}", self.detail),
            kind => write!(f, "the pairing failed: kind {kind}, detail {:#04x}", self.detail),
        }
    }
}

impl core::error::Error for Failure {}

/// How a machine stands.
#[derive(Clone, Copy, Debug, PartialEq, Eq)]
pub struct Status {
    /// None while the pairing is pending.
    pub result: Option<Result<(), Failure>>,
    /// Whether the machine is in a phase in which the link is encrypted.
    pub is_encrypted: bool,
    /// The level of the bond that the machine holds, by [`level`]. `level::NONE` where the link is not
    /// encrypted, or no bond is held.
    pub level: u8,
}

/// A machine of either role, as its record.
///
/// A record holds keys. So a machine is not `Copy`: no second one comes about unless a `clone` is written for
/// it. It has no `PartialEq` either, since a comparison of keys that stops at the first difference tells by
/// its time where that is; and its `Debug` shows no octet of the record. Nothing clears a machine that is
/// dropped.
#[derive(Clone)]
pub struct Machine {
    role: Role,
    record: [u8; size::MACHINE],
}

impl fmt::Debug for Machine {
    fn fmt(&self, f: &mut fmt::Formatter<'_>) -> fmt::Result {
        f.debug_struct("Machine").field("role", &self.role).field("status", &self.status()).finish_non_exhaustive()
    }
}

impl Machine {
    /// A machine that begins a pairing: a terminal that has sent a request with these features, or a head
    /// that waits for one.
    pub fn new(role: Role, local: &Address, peer: &Address, features: &[u8]) -> Result<Self, Refusal> {
        let mut record = [0; size::MACHINE];
        // SAFETY: each pointer and length is one slice's, and the record is lent to this call alone.
        done(unsafe {
            sys::legacy_pairing_new(
                role.number(),
                local.as_ptr(),
                local.len(),
                peer.as_ptr(),
                peer.len(),
                features.as_ptr(),
                features.len(),
                record.as_mut_ptr(),
                record.len(),
            )
        })?;
        Ok(Self { role, record })
    }

    /// The machine of a record that was kept. A malformed one is refused by `step` and by `status`. A record
    /// of an earlier step cannot be told from the newest: keep the newest.
    pub fn from_record(role: Role, record: [u8; size::MACHINE]) -> Self {
        Self { role, record }
    }

    pub fn role(&self) -> Role {
        self.role
    }

    /// The record, to be kept; or to be looked at where [`machine`] says.
    pub fn record(&self) -> &[u8; size::MACHINE] {
        &self.record
    }

    /// One step on an input and the host's answers so far. A refused step leaves the machine and the list as
    /// they were.
    pub fn step(&mut self, input: Input, answers: &[u8], list: &mut [u8]) -> Result<Stepped, Refusal> {
        match input {
            Input::Command(code, payload) => self.run(u16::from(code), payload, answers, list),
            Input::LinkEncryptedResult(on) => {
                self.run(input::LINK_ENCRYPTED_RESULT, &[if on { YES } else { NO }], answers, list)
            }
            Input::PassKeyConfirm => self.run(input::PASS_KEY_CONFIRM, &[], answers, list),
            Input::PassKeyCancel => self.run(input::PASS_KEY_CANCEL, &[], answers, list),
            Input::PassKeyInput(passkey) => self.run(input::PASS_KEY_INPUT, &passkey.to_le_bytes(), answers, list),
            Input::OobDataReceived(random) => self.run(input::OOB_DATA_RECEIVED, &random, answers, list),
        }
    }

    fn run(&mut self, input: u16, payload: &[u8], answers: &[u8], list: &mut [u8]) -> Result<Stepped, Refusal> {
        let (mut read, mut written) = (0, 0);
        // SAFETY: each pointer and length is one slice's; the record, the list and the counts are lent to
        // this call alone.
        let number = unsafe {
            sys::legacy_pairing_step(
                self.role.number(),
                self.record.as_mut_ptr(),
                self.record.len(),
                input,
                payload.as_ptr(),
                payload.len(),
                answers.as_ptr(),
                answers.len(),
                list.as_mut_ptr(),
                list.len(),
                &mut read,
                &mut written,
            )
        };
        let outcome = match number {
            outcome::DONE => Outcome::Ended,
            outcome::WANTS => Outcome::Wants,
            n => return Err(Refusal(n)),
        };
        Ok(Stepped { outcome, read, written })
    }

    /// How the machine stands. Refused where the machine is of a malformed record.
    pub fn status(&self) -> Result<Status, Refusal> {
        let (mut number, mut kind, mut detail, mut is_encrypted, mut level) = (0, 0, 0, 0, 0);
        // SAFETY: the pointer and length are the record's, and the results are lent to this call alone.
        done(unsafe {
            sys::legacy_pairing_result(
                self.role.number(),
                self.record.as_ptr(),
                self.record.len(),
                &mut number,
                &mut kind,
                &mut detail,
                &mut is_encrypted,
                &mut level,
            )
        })?;
        let result = match number {
            result::SUCCESS => Some(Ok(())),
            result::FAILED => Some(Err(Failure { kind, detail })),
            pending => {
                debug_assert_eq!(pending, result::PENDING, "there are three");
                None
            }
        };
        Ok(Status { result, is_encrypted: is_encrypted == YES, level })
    }
}

/// Pairing features, an octet each.
#[derive(Clone, Copy, Debug, PartialEq, Eq)]
pub struct Features {
    pub io: u8,
    pub oob: u8,
    pub auth_req: u8,
    pub key_size: u8,
    pub initiator_keys: u8,
    pub responder_keys: u8,
}

/// Reads features from the payload of a Pairing Request or Response.
pub fn read_features(payload: &[u8]) -> Result<Features, Refusal> {
    let mut f = [0; size::FEATURES];
    // SAFETY: each pointer and length is one slice's, and the fields are lent to this call alone.
    done(unsafe { sys::legacy_pairing_read_features(payload.as_ptr(), payload.len(), f.as_mut_ptr(), f.len()) })?;
    Ok(Features {
        io: f[features::IO_OFFSET],
        oob: f[features::OOB_OFFSET],
        auth_req: f[features::AUTH_REQ_OFFSET],
        key_size: f[features::KEY_SIZE_OFFSET],
        initiator_keys: f[features::INITIATOR_KEYS_OFFSET],
        responder_keys: f[features::RESPONDER_KEYS_OFFSET],
    })
}

/// Writes features as a payload.
pub fn write_features(f: Features) -> Result<[u8; size::FEATURES], Refusal> {
    let mut payload = [0; size::FEATURES];
    // SAFETY: the pointer and length are one slice's, lent to this call alone.
    done(unsafe {
        sys::legacy_pairing_write_features(
            f.io,
            f.oob,
            f.auth_req,
            f.key_size,
            f.initiator_keys,
            f.responder_keys,
            payload.as_mut_ptr(),
            payload.len(),
        )
    })?;
    Ok(payload)
}

/// The confirm value c1 of Part H 2.2.3; preq and pres have their command codes in front.
pub fn c1(
    k: &[u8; size::VALUE],
    r: &[u8; size::VALUE],
    preq: &[u8; size::PAIRING_PDU],
    pres: &[u8; size::PAIRING_PDU],
    initiator: &Address,
    responder: &Address,
) -> [u8; size::VALUE] {
    let mut confirm = [0; size::VALUE];
    // SAFETY: each pointer and length is one array's, and the confirm value is lent to this call alone.
    let number = unsafe {
        sys::legacy_pairing_c1(
            k.as_ptr(),
            k.len(),
            r.as_ptr(),
            r.len(),
            preq.as_ptr(),
            preq.len(),
            pres.as_ptr(),
            pres.len(),
            initiator.as_ptr(),
            initiator.len(),
            responder.as_ptr(),
            responder.len(),
            confirm.as_mut_ptr(),
            confirm.len(),
        )
    };
    debug_assert_eq!(number, outcome::DONE, "all lengths are right");
    confirm
}

/// The short-term key s1 of Part H 2.2.4.
pub fn s1(k: &[u8; size::VALUE], srand: &[u8; size::VALUE], mrand: &[u8; size::VALUE]) -> [u8; size::VALUE] {
    let mut key = [0; size::VALUE];
    // SAFETY: each pointer and length is one array's, and the key is lent to this call alone.
    let number = unsafe {
        sys::legacy_pairing_s1(
            k.as_ptr(),
            k.len(),
            srand.as_ptr(),
            srand.len(),
            mrand.as_ptr(),
            mrand.len(),
            key.as_mut_ptr(),
            key.len(),
        )
    };
    debug_assert_eq!(number, outcome::DONE, "all lengths are right");
    key
}

/// A call of a list. Its body may be a key: so it has no `PartialEq`, as [`Machine`] has none, and its
/// `Debug` shows no octet of the body.
#[derive(Clone, Copy)]
pub struct Call<'a> {
    /// One of [`call`].
    pub kind: u8,
    pub body: &'a [u8],
}

impl fmt::Debug for Call<'_> {
    fn fmt(&self, f: &mut fmt::Formatter<'_>) -> fmt::Result {
        write!(f, "Call({:#04x}, {} octets)", self.kind, self.body.len())
    }
}

/// The number of calls of a list.
pub fn count_calls(list: &[u8]) -> Result<usize, Refusal> {
    let mut count = 0;
    // SAFETY: the pointer and length are one slice's, and the count is lent to this call alone.
    done(unsafe { sys::legacy_pairing_count_calls(list.as_ptr(), list.len(), &mut count) })?;
    Ok(count)
}

/// The call at an index, counted from 0.
pub fn call_at(list: &[u8], index: usize) -> Result<Call<'_>, Refusal> {
    let (mut kind, mut body, mut size) = (0, 0, 0);
    // SAFETY: the pointer and length are one slice's, and the results are lent to this call alone.
    done(unsafe { sys::legacy_pairing_call_at(list.as_ptr(), list.len(), index, &mut kind, &mut body, &mut size) })?;
    Ok(Call { kind, body: &list[body..body + size] })
}
