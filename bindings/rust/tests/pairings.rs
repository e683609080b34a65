//! Whole pairings of two ends, pairings that fail, and refusals; each by what document 01 says.

use std::collections::VecDeque;

use legacy_pairing::{address, auth, bond, call, command, failure, features, io, keys, level, machine, method, reason};
use legacy_pairing::{call_at, count_calls, refusal, size, verdict, Failure, Input, Machine, Outcome, Refusal, Role};
use legacy_pairing::{Status, NO, YES};

const PASSKEY: u32 = 204_518;
const OOB: [u8; 16] = *b"out of band data";

/// An event that a call has asked for.
#[derive(Clone, Copy, PartialEq)]
enum Due {
    NotYet,
    Now,
    Had,
}

struct End {
    machine: Machine,
    features: [u8; 6],
    peer: [u8; 7],
    /// The peer's identity address has come.
    identified: bool,
    sent: VecDeque<(u8, Vec<u8>)>,
    passkey: Due,
    oob: Due,
    report: Due,
    encryption: Option<Vec<u8>>,
    complete: Option<Vec<u8>>,
    shown: Option<u32>,
    /// A call that this host does not get done, and its verdict.
    failing: Option<(u8, u8)>,
    /// The answer to 0x3B: the level of the bond, where there is one.
    bonded: Option<u8>,
    /// The octets of answers read in the longest step.
    longest: usize,
}

fn counting<const N: usize>(first: u8) -> [u8; N] {
    std::array::from_fn(|i| first + i as u8)
}

/// An end's link address.
fn own_address(role: Role) -> [u8; 7] {
    let (kind, first) = match role {
        Role::Terminal => (address::PUBLIC, 0x10),
        Role::Head => (address::RANDOM, 0x20),
    };
    let mut own = counting(first);
    own[address::KIND_OFFSET] = kind;
    own
}

/// An end's identity address. It differs from the link address in each octet, its kind too.
fn identity_address(role: Role) -> [u8; 7] {
    let (kind, first) = match role {
        Role::Terminal => (address::RANDOM, 0xc0),
        Role::Head => (address::PUBLIC, 0xd0),
    };
    let mut identity = counting(first);
    identity[address::KIND_OFFSET] = kind;
    identity
}

fn peer_of(role: Role) -> Role {
    if role == Role::Head {
        Role::Terminal
    } else {
        Role::Head
    }
}

/// The first octet of what an end draws, which is not the other's.
fn drawn(role: Role, first: u8) -> u8 {
    first + if role == Role::Head { 0x10 } else { 0 }
}

impl End {
    fn new(role: Role, features: [u8; 6]) -> Self {
        let (own, peer) = (own_address(role), own_address(peer_of(role)));
        Self {
            machine: Machine::new(role, &own, &peer, &features).expect("features that are read"),
            features,
            peer,
            identified: false,
            sent: VecDeque::new(),
            passkey: Due::NotYet,
            oob: Due::NotYet,
            report: Due::NotYet,
            encryption: None,
            complete: None,
            shown: None,
            failing: None,
            bonded: None,
            longest: 0,
        }
    }

    fn act(&mut self, kind: u8, body: &[u8]) {
        match kind {
            0x02..=0x09 => self.sent.push_back((kind, body.to_vec())),
            call::EVENT_PAIRING_COMPLETE => self.complete = Some(body.to_vec()),
            call::EVENT_PASS_KEY_DISPLAY => {
                self.shown = Some(u32::from_le_bytes(body.try_into().expect("four octets")))
            }
            call::EVENT_PASS_KEY_INPUT => self.passkey = Due::Now,
            call::EVENT_OOB_REQUEST => self.oob = Due::Now,
            call::ENABLE_ENCRYPTION => {
                assert_eq!(self.encryption, None, "encryption is called once");
                (self.encryption, self.report) = (Some(body.to_vec()), Due::Now);
            }
            _ => {}
        }
    }

    fn answer(&self, kind: u8, body: &[u8]) -> Vec<u8> {
        let role = self.machine.role();
        let verdict =
            self.failing.filter(|&(failing, _)| failing == kind).map_or(verdict::DONE, |(_, verdict)| verdict);
        match kind {
            call::ASK_FIND_BOND => vec![NO],
            call::ASK_LOCAL_IRK => counting::<16>(drawn(role, 0xa0)).to_vec(),
            call::ASK_IDENTITY_ADDRESS => [&[verdict][..], &identity_address(role)].concat(),
            call::ASK_BONDING_FLAG => {
                vec![if self.features[features::AUTH_REQ_OFFSET] & auth::BONDING_MASK == auth::BONDING {
                    YES
                } else {
                    NO
                }]
            }
            call::ASK_OOB_AVAILABLE => vec![self.features[features::OOB_OFFSET]],
            call::DRAW_NONCE => counting::<16>(drawn(role, 0x35)).to_vec(),
            call::DRAW_PASS_KEY => PASSKEY.to_le_bytes().to_vec(),
            call::DRAW_LTK => counting::<16>(drawn(role, 0x37)).to_vec(),
            call::DRAW_EDIV => counting::<2>(drawn(role, 0x50)).to_vec(),
            call::DRAW_RAND => counting::<8>(drawn(role, 0x60)).to_vec(),
            call::ENABLE_ENCRYPTION => {
                let mut bond = [0; size::BOND];
                bond[bond::LTK_OFFSET..][..16].copy_from_slice(&body[call::ENABLE_ENCRYPTION_BODY_KEY_OFFSET..][..16]);
                bond[bond::LEVEL_OFFSET] = body[call::ENABLE_ENCRYPTION_BODY_LEVEL_OFFSET];
                bond[bond::ADDRESS_OFFSET..].copy_from_slice(&self.peer);
                [&[verdict][..], &bond].concat()
            }
            call::ENABLE_BONDED_ENCRYPTION => {
                let mut bond = [0; size::BOND];
                bond[bond::LEVEL_OFFSET] = self.bonded.unwrap_or(0);
                [&[verdict, if self.bonded.is_some() { YES } else { NO }][..], &bond].concat()
            }
            _ => vec![verdict],
        }
    }

    /// A step, run again with one answer more until it ends.
    fn give(&mut self, input: Input) -> Result<(), Refusal> {
        let (mut answers, mut list, mut known) = (Vec::new(), [0; size::CALL_LIST], 0);
        loop {
            let before = *self.machine.record();
            let stepped = self.machine.step(input, &answers, &mut list)?;
            let calls = &list[..stepped.written];
            assert_eq!(stepped.read, answers.len());
            self.longest = self.longest.max(stepped.read);
            if stepped.outcome == Outcome::Ended {
                assert_eq!(count_calls(calls), Ok(known), "no call is new");
                return Ok(());
            }
            assert_eq!(*self.machine.record(), before, "a step that wants leaves the machine");
            known += 1;
            assert_eq!(count_calls(calls), Ok(known), "one call is new");
            let new = call_at(calls, known - 1)?;
            self.act(new.kind, new.body);
            answers.push(new.kind);
            answers.extend(self.answer(new.kind, new.body));
        }
    }

    fn status(&self) -> Status {
        self.machine.status().expect("a record that a step wrote")
    }

    fn bond(&self) -> &[u8] {
        let record = self.machine.record();
        assert_eq!(record[machine::BOND_PRESENT_OFFSET], YES);
        &record[machine::BOND_OFFSET..]
    }

    /// The peer's address that the machine holds. Its bond, if any, has the same.
    fn peer_address(&self) -> &[u8] {
        let record = self.machine.record();
        let address = &record[machine::PEER_ADDRESS_OFFSET..][..size::ADDRESS];
        if record[machine::BOND_PRESENT_OFFSET] == YES {
            assert_eq!(&self.bond()[bond::ADDRESS_OFFSET..], address);
        }
        address
    }

    fn failed(mut self, input: Input, kind: u8, detail: u8) -> Self {
        self.give(input).expect("not refused");
        let failed = Some(Err(Failure { kind, detail }));
        assert_eq!(self.status(), Status { result: failed, is_encrypted: false, level: level::NONE });
        self
    }
}

const PENDING: Status = Status { result: None, is_encrypted: false, level: level::NONE };

fn success(level: u8) -> Status {
    Status { result: Some(Ok(())), is_encrypted: true, level }
}

/// The next input of an end: an event due, else the other's oldest packet.
fn take(end: &mut End, other: &mut End) -> bool {
    if end.report == Due::Now {
        end.report = Due::Had;
        end.give(Input::LinkEncryptedResult(true)).expect("the report");
    } else if end.passkey == Due::Now {
        end.passkey = Due::Had;
        end.give(Input::PassKeyInput(PASSKEY)).expect("the passkey");
    } else if end.oob == Due::Now && (end.machine.role() == Role::Head || other.oob == Due::Had) {
        end.oob = Due::Had;
        end.give(Input::OobDataReceived(OOB)).expect("the out-of-band value");
    } else if let Some((code, payload)) = other.sent.pop_front() {
        end.identified |= code == call::SEND_IDENTITY_ADDRESS_INFORMATION;
        end.give(Input::Command(code, &payload)).expect("a packet");
    } else {
        return false;
    }
    true
}

/// Plays a pairing to its end: both ends, and the number of inputs.
fn play(terminal: [u8; 6], head: [u8; 6]) -> (End, End, usize) {
    let (mut terminal, mut head) = (End::new(Role::Terminal, terminal), End::new(Role::Head, head));
    assert_eq!((terminal.status(), head.status()), (PENDING, PENDING));
    terminal.sent.push_back((command::PAIRING_REQUEST, terminal.features.to_vec()));
    let mut inputs = 0;
    while take(&mut head, &mut terminal) || take(&mut terminal, &mut head) {
        inputs += 1;
        for end in [&terminal, &head] {
            // Encrypted from the report on, at the level of the call for encryption.
            let called = end.encryption.as_ref().filter(|_| end.report == Due::Had);
            let level = called.map_or(level::NONE, |call| call[call::ENABLE_ENCRYPTION_BODY_LEVEL_OFFSET]);
            assert_eq!((end.status().is_encrypted, end.status().level), (called.is_some(), level));
            // The link address until the identity address comes, then that.
            let peer = peer_of(end.machine.role());
            assert_eq!(end.peer_address(), if end.identified { identity_address(peer) } else { own_address(peer) });
        }
    }
    (terminal, head, inputs)
}

const BOTH: u8 = keys::ENCRYPTION | keys::IDENTITY;
const BONDS: u8 = auth::BONDING | auth::MITM;
const JUST_WORKS: [u8; 6] = [io::NO_INPUT_NO_OUTPUT, NO, auth::BONDING, 16, BOTH, BOTH];
const ALONE: [u8; 6] = [io::NO_INPUT_NO_OUTPUT, NO, 0, 16, 0, 0];
const SHOWS: [u8; 6] = [io::DISPLAY_ONLY, NO, BONDS, 16, BOTH, BOTH];
const TYPES: [u8; 6] = [io::KEYBOARD_ONLY, NO, BONDS, 9, BOTH, BOTH];
const OUT_OF_BAND: [u8; 6] = [io::NO_INPUT_NO_OUTPUT, YES, BONDS, 16, BOTH, BOTH];

/// Document 01: inputs are 8 + entries + twice the keys; both end in Success, encryption called once with one
/// key and level; both bonds hold the same cut LTK, EDIV and Rand.
#[test]
fn both_bond() {
    // terminal, head, method, level, key size, entries, who shows
    let (just_works, authenticated) = (level::ENCRYPTED, level::AUTHENTICATED);
    let cases = [
        (JUST_WORKS, JUST_WORKS, method::JUST_WORKS, just_works, 16, 0, [false, false]),
        (SHOWS, TYPES, method::TERMINAL_DISPLAYS, authenticated, 9, 1, [true, false]),
        (TYPES, SHOWS, method::HEAD_DISPLAYS, authenticated, 9, 1, [false, true]),
        (TYPES, TYPES, method::BOTH_INPUT, authenticated, 9, 2, [false, false]),
        (OUT_OF_BAND, OUT_OF_BAND, method::OUT_OF_BAND, authenticated, 16, 2, [false, false]),
    ];
    for (terminal, head, method, level, key_size, entries, shows) in cases {
        let (terminal, head, inputs) = play(terminal, head);
        assert_eq!(inputs, 8 + entries + 2 * 4);
        let mut ltk = counting::<16>(drawn(Role::Head, 0x37));
        ltk[usize::from(key_size)..].fill(0);
        let (key, ends) = (terminal.encryption.clone().expect("called"), [&terminal, &head]);
        for (end, shows) in ends.into_iter().zip(shows) {
            assert_eq!(end.status(), success(level));
            assert_eq!(end.machine.record()[machine::METHOD_OFFSET], method);
            assert_eq!(end.shown, shows.then_some(PASSKEY));
            assert_eq!(end.encryption.as_ref(), Some(&key));
            assert_eq!(key[call::ENABLE_ENCRYPTION_BODY_LEVEL_OFFSET], level);
            assert_eq!(key[call::ENABLE_ENCRYPTION_BODY_KEY_SIZE_OFFSET], key_size);
            let bond = end.bond();
            assert_eq!(bond[bond::LTK_OFFSET..][..size::VALUE], ltk);
            assert_eq!(bond[bond::EDIV_OFFSET..][..size::EDIV], counting::<2>(0x60));
            assert_eq!(bond[bond::RAND_OFFSET..][..size::RAND], counting::<8>(0x70));
            assert_eq!(bond[bond::IS_BONDED_OFFSET], YES);
            assert_eq!(bond[bond::LEVEL_OFFSET], level);
            let complete = end.complete.as_ref().expect("told");
            assert_eq!(complete[call::EVENT_PAIRING_COMPLETE_BODY_LEVEL_OFFSET], level);
            assert_eq!(complete[call::EVENT_PAIRING_COMPLETE_BODY_PRESENT_OFFSET], YES);
            assert_eq!(&complete[call::EVENT_PAIRING_COMPLETE_BODY_BOND_OFFSET..], bond);
        }
        assert_eq!(terminal.bond()[bond::IRK_OFFSET..][..size::VALUE], counting::<16>(0xb0));
        assert_eq!(terminal.bond()[bond::ADDRESS_OFFSET..], identity_address(Role::Head));
        assert_eq!(head.bond()[bond::IRK_OFFSET..][..size::VALUE], counting::<16>(0xa0));
        assert_eq!(head.bond()[bond::ADDRESS_OFFSET..], identity_address(Role::Terminal));
        assert_eq!(terminal.longest.max(head.longest), size::ANSWERS, "every key of an end in one step");
        let (t, h) = (terminal.machine.record(), head.machine.record());
        let at = |record: &[u8; size::MACHINE], place: usize| record[place..][..size::FEATURES].to_vec();
        assert_eq!(at(t, machine::LOCAL_FEATURES_OFFSET), at(h, machine::PEER_FEATURES_OFFSET));
        assert_eq!(at(t, machine::PEER_FEATURES_OFFSET), at(h, machine::LOCAL_FEATURES_OFFSET));
        assert_eq!(t[machine::LOCAL_ADDRESS_OFFSET..][..size::ADDRESS], own_address(Role::Terminal));
        assert_eq!(h[machine::LOCAL_ADDRESS_OFFSET..][..size::ADDRESS], own_address(Role::Head));
        assert_eq!(t[machine::PEER_ADDRESS_OFFSET..][..size::ADDRESS], identity_address(Role::Head));
        assert_eq!(h[machine::PEER_ADDRESS_OFFSET..][..size::ADDRESS], identity_address(Role::Terminal));
    }
}

/// The excepted case: the request names the identity key, the head does not bond. It waits for a key that
/// nobody sends.
#[test]
fn the_head_does_not_bond() {
    let (terminal, head, inputs) = play(JUST_WORKS, ALONE);
    assert_eq!((inputs, terminal.status()), (8, success(level::ENCRYPTED)));
    assert_eq!(head.status(), Status { result: None, ..success(level::ENCRYPTED) });
    assert_eq!(terminal.peer_address(), own_address(Role::Head));
    assert_eq!(head.peer_address(), own_address(Role::Terminal));
    assert_eq!(terminal.complete.expect("told")[call::EVENT_PAIRING_COMPLETE_BODY_PRESENT_OFFSET], NO);
    assert_eq!(head.complete, None);
}

/// A head that waits for a passkey to be typed.
fn typing_head() -> End {
    let mut head = End::new(Role::Head, TYPES);
    head.give(Input::Command(command::PAIRING_REQUEST, &SHOWS)).expect("a request");
    assert!(head.passkey == Due::Now && head.status() == PENDING);
    head
}

/// Document 01's whole example.
#[test]
fn the_whole_example() {
    let (mut machine, mut list) = (typing_head().machine, [0xee; size::CALL_LIST]);
    let first = machine.step(Input::PassKeyCancel, &[], &mut list).expect("not refused");
    assert_eq!((first.outcome, first.written, first.read), (Outcome::Wants, 3, 0));
    assert_eq!((&list[..3], machine.status()), (&[0x20, 0x01, 0x01][..], Ok(PENDING)));
    assert_eq!(list[3..], [0xee; size::CALL_LIST - 3]);
    let second = machine.step(Input::PassKeyCancel, &[0x20, 0x00], &mut list).expect("not refused");
    assert_eq!((second.outcome, second.written, second.read), (Outcome::Ended, 3, 2));
    let failed = Failure { kind: failure::SECURITY, detail: reason::PASSKEY_ENTRY_FAILED };
    assert_eq!(machine.status().map(|s| s.result), Ok(Some(Err(failed))));
    assert_eq!(failed.to_string(), "the pairing failed: reason 0x01");
}

#[test]
fn pairings_that_fail() {
    let (terminal, head) = (|| End::new(Role::Terminal, ALONE), || End::new(Role::Head, ALONE));
    let off = Input::LinkEncryptedResult(false);
    head().failed(off, failure::SECURITY, reason::KEY_REJECTED);
    terminal().failed(off, failure::INVALID_STATE, 0);
    terminal().failed(Input::OobDataReceived(OOB), failure::INVALID_STATE, 0);
    typing_head().failed(Input::Command(0x03, &[0; 15]), failure::INVALID_VALUE, 0);
    let peer_failed = |payload| Input::Command(command::PAIRING_FAILED, payload);
    head().failed(peer_failed(&[0x05]), failure::SECURITY, reason::PAIRING_NOT_SUPPORTED);
    terminal().failed(peer_failed(&[0x10]), failure::SECURITY, reason::BUSY);
    terminal().failed(peer_failed(&[0x11]), failure::SECURITY, reason::UNSPECIFIED_REASON);
    terminal().failed(peer_failed(&[]), failure::SECURITY, reason::UNSPECIFIED_REASON);
    let request = Input::Command(command::PAIRING_REQUEST, &ALONE);
    let failing = |verdict| End { failing: Some((call::SEND_PAIRING_RESPONSE, verdict)), ..head() };
    failing(verdict::OUT_OF_MEMORY).failed(request, failure::OUT_OF_MEMORY, 0);
    failing(0x3e).failed(request, failure::HOST, 0x3e);
    let (_, paired, _) = play(ALONE, ALONE);
    assert_eq!(paired.status(), success(level::ENCRYPTED));
    let failed = paired.failed(peer_failed(&[0x05]), failure::SECURITY, reason::PAIRING_NOT_SUPPORTED);
    assert_eq!(failed.bond()[bond::LEVEL_OFFSET], level::ENCRYPTED, "no level is told, though a bond is held");
}

/// A link that an old bond encrypts before any request: levels are passed on; without a bond there is none.
#[test]
fn an_old_bond() {
    for bonded in [None, Some(0x77), Some(level::AUTHENTICATED)] {
        let mut head = End { bonded, ..End::new(Role::Head, ALONE) };
        head.give(Input::LinkEncryptedResult(true)).expect("the report");
        assert_eq!(head.status(), success(bonded.unwrap_or(level::NONE)));
    }
}

/// A refused step leaves the machine, the list and so the pairing as they were.
#[test]
fn refused_steps() {
    let mut machine = typing_head().machine;
    let before = *machine.record();
    let confirm = [0; 16];
    let mut list = [0xee; size::CALL_LIST];
    let mut refused = |input, answers: &[u8], len: usize| {
        let refused = machine.step(input, answers, &mut list[..len]).expect_err("refused");
        assert!(*machine.record() == before && list == [0xee; size::CALL_LIST]);
        refused.0
    };
    assert_eq!(refused(Input::PassKeyCancel, &[], size::CALL_LIST - 1), refusal::LIST_TOO_SHORT);
    for code in [0x00, 0x0f, 0xff] {
        assert_eq!(refused(Input::Command(code, &confirm), &[], size::CALL_LIST), refusal::NO_COMMAND);
    }
    for answers in [&[0x21, 0][..], &[0x20]] {
        assert_eq!(refused(Input::PassKeyCancel, answers, size::CALL_LIST), refusal::BAD_ANSWER);
    }
    assert_eq!(machine.status(), Ok(PENDING));
}

/// The places are those of the machine record, by its table.
#[test]
fn records_that_are_none() {
    let fresh = *End::new(Role::Head, ALONE).machine.record();
    let cases = [
        (0, 11, refusal::MACHINE_PHASE),
        (96, 5, refusal::MACHINE_FEATURES),
        (103, 2, refusal::MACHINE_FEATURES),
        (108, 7, refusal::MACHINE_METHOD),
        (109, 2, refusal::MACHINE_BOND),
        (18, 1, refusal::NOT_CANONICAL),
        (110, 1, refusal::NOT_CANONICAL),
    ];
    for (place, octet, number) in cases {
        let mut record = fresh;
        record[place] = octet;
        let mut machine = Machine::from_record(Role::Head, record);
        assert_eq!(machine.status(), Err(Refusal(number)), "octet {place}");
        let mut list = [0; size::CALL_LIST];
        assert_eq!(machine.step(Input::PassKeyCancel, &[], &mut list), Err(Refusal(number)));
        assert_eq!(*machine.record(), record);
    }
    let own = own_address(Role::Head);
    assert_eq!(Machine::new(Role::Head, &own, &own, &ALONE[..5]).err(), Some(Refusal(refusal::FEATURES_CUT)));
    assert_eq!(Machine::new(Role::Head, &own, &own, &[5, 0, 0, 16, 0, 0]).err(), Some(Refusal(refusal::BAD_FEATURES)));
}

/// A kept record is the machine, and its Debug shows no octet of it.
#[test]
fn kept_and_printed() {
    let (_, head, _) = play(JUST_WORKS, JUST_WORKS);
    let kept = Machine::from_record(Role::Head, *head.machine.record());
    assert_eq!(kept.status(), Ok(success(level::ENCRYPTED)));
    let printed =
        "Machine { role: Head, status: Ok(Status { result: Some(Ok(())), is_encrypted: true, level: 1 }), .. }";
    assert_eq!(format!("{kept:?}"), printed);
}
