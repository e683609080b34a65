//! The linked library beside the unchanged Rust of docs/src: steps at random and how the machine stands after
//! each, call lists, c1, s1 and features.

use std::cell::RefCell;
use std::io::{self, Write};
use std::rc::Rc;

use cases::random::Random;
use cases::{Generator, Sink};
use legacy_pairing::{c1, call_at, count_calls, read_features, refusal, s1, size, write_features};
use legacy_pairing::{Failure, Features, Input, Machine, Outcome, Refusal, Role, Status};
use reference::machine::{Record, BOND, BOND_PRESENT, DETAIL, PHASE, REASON};
use reference::{lines, Step};

/// Step lines are kept here.
#[derive(Clone, Default)]
struct Kept(Rc<RefCell<Vec<u8>>>);

impl Write for Kept {
    fn write(&mut self, octets: &[u8]) -> io::Result<usize> {
        self.0.borrow_mut().extend(octets);
        Ok(octets.len())
    }

    fn flush(&mut self) -> io::Result<()> {
        Ok(())
    }
}

/// Steps at random, of all families that the differential runs have; malformed lines are left out.
fn steps(seed: u64, count: usize) -> Vec<Step> {
    reference::step::silence_panics();
    let kept = Kept::default();
    let mut sink = Sink::new(Box::new(kept.clone()), count);
    let mut generator = Generator::new(seed);
    while !sink.is_full() {
        generator.scenario(&mut sink);
    }
    sink.finish().expect("kept in memory");
    let octets = kept.0.borrow();
    octets.split(|&o| o == b'\n').filter_map(lines::parse).collect()
}

fn input(given: &Step) -> Input<'_> {
    match given.input {
        reference::Input::Command(code) => Input::Command(code, &given.payload),
        reference::Input::LinkEncryptedResult(on) => Input::LinkEncryptedResult(on),
        reference::Input::PassKeyConfirm => Input::PassKeyConfirm,
        reference::Input::PassKeyCancel => Input::PassKeyCancel,
        reference::Input::PassKeyInput(passkey) => Input::PassKeyInput(passkey),
        reference::Input::OobDataReceived(random) => Input::OobDataReceived(random),
    }
}

/// How the machine of a record stands, by the table of the machine record. Its phases are the Rust's states:
/// `result` of legacy_central.rs and legacy_peripheral.rs is none before Success (9) and Error (10),
/// `is_encrypted` holds from WaitingIdentitityInformation (6) to Success, and `security_level` of mod.rs is
/// the level of the bond there.
fn standing(m: &Record) -> Status {
    let result = match m[PHASE] {
        0..=8 => None,
        9 => Some(Ok(())),
        _ => Some(Err(Failure { kind: m[DETAIL], detail: m[REASON] })),
    };
    let is_encrypted = (6..=9).contains(&m[PHASE]);
    let level = if is_encrypted && m[BOND_PRESENT] == 1 { m[BOND + 27] } else { 0 };
    Status { result, is_encrypted, level }
}

/// The linked library's answer to a step, in the reference's words, and how it says that the machine stands
/// then.
fn answer(given: &Step) -> ((reference::Outcome, usize, usize, Record, Vec<u8>), Result<Status, Refusal>) {
    let role = match given.role {
        reference::Role::Central => Role::Terminal,
        reference::Role::Peripheral => Role::Head,
    };
    let mut machine = Machine::from_record(role, given.machine);
    let mut list = vec![reference::step::UNTOUCHED; given.list_len];
    let (outcome, read, written) = match machine.step(input(given), &given.answers, &mut list) {
        Ok(s) if s.outcome == Outcome::Ended => (reference::Outcome::Ended, s.read, s.written),
        Ok(s) => (reference::Outcome::Wants, s.read, s.written),
        Err(Refusal(number)) => (reference::Outcome::Refused(number), 0, 0),
    };
    ((outcome, read, written, *machine.record(), list), machine.status())
}

#[test]
fn steps_are_the_rusts() {
    let (mut ended, mut wants, mut refused) = (0, 0, 0);
    // How many machines stood so after a step, by role and phase; how many had failed, by kind; levels of
    // encrypted links; the most octets of answers that a step has read.
    let (mut stood, mut failed, mut levels, mut most) = ([[0; 11]; 2], [0; 6], [0; 256], 0);
    for given in steps(7, 100_000) {
        let rust = reference::step(&given);
        assert_ne!(rust.panicked, Some("unknown"));
        let (ours, status) = answer(&given);
        assert_eq!(status, Ok(standing(&rust.machine)), "{given:?}");
        assert_eq!(ours, (rust.outcome, rust.read, rust.written, rust.machine, rust.list), "{given:?}");
        match rust.outcome {
            reference::Outcome::Ended => ended += 1,
            reference::Outcome::Wants => wants += 1,
            reference::Outcome::Refused(_) => refused += 1,
        }
        stood[usize::from(given.role == reference::Role::Peripheral)][usize::from(rust.machine[PHASE])] += 1;
        if rust.machine[PHASE] == 10 {
            failed[usize::from(rust.machine[DETAIL])] += 1;
        }
        if standing(&rust.machine).is_encrypted {
            levels[usize::from(standing(&rust.machine).level)] += 1;
        }
        most = most.max(rust.read);
    }
    assert!(ended > 10_000 && wants > 10_000 && refused > 5_000, "{ended} ended, {wants} want, {refused} refused");
    assert!(stood.as_flattened().iter().all(|&n| n > 500), "in the phases {stood:?}");
    assert!(failed[1..].iter().all(|&n| n > 50), "failed by kind {failed:?}");
    assert!(levels[..3].iter().all(|&n| n > 500) && levels[3..].iter().any(|&n| n > 0), "levels {levels:?}");
    assert_eq!(most, size::ANSWERS, "the answers to the longest step");
}

/// What a step lists reads as its calls, end to end.
#[test]
fn lists_read_as_the_calls() {
    let mut calls = 0;
    for given in steps(8, 20_000) {
        let rust = reference::step(&given);
        let list = &rust.list[..rust.written];
        let records = reference::calls::records(list).expect("the reference reads it");
        assert_eq!(count_calls(list), Ok(records.len()));
        for (index, (kind, body)) in records.iter().enumerate() {
            let call = call_at(list, index).expect("it is there");
            assert_eq!((call.kind, call.body), (kind.code, *body));
            calls += 1;
        }
        assert_eq!(call_at(list, records.len()).err(), Some(Refusal(refusal::NO_CALL)));
        if let Some(cut) = rust.written.checked_sub(1).filter(|&cut| reference::calls::records(&list[..cut]).is_none())
        {
            assert_eq!(count_calls(&list[..cut]), Err(Refusal(refusal::BAD_CALL_LIST)));
        }
    }
    assert!(calls > 20_000, "{calls} calls");
}

fn octets<const N: usize>(r: &mut Random) -> [u8; N] {
    [(); N].map(|()| r.octet())
}

fn backwards(mut octets: [u8; 6]) -> [u8; 6] {
    octets.reverse();
    octets
}

#[test]
fn c1_and_s1_are_the_rusts() {
    let mut r = Random::new(9);
    for _ in 0..20_000 {
        let (k, nonce, other): ([u8; 16], [u8; 16], [u8; 16]) = (octets(&mut r), octets(&mut r), octets(&mut r));
        let (preq, pres): ([u8; 7], [u8; 7]) = (octets(&mut r), octets(&mut r));
        let (ia, ra): ([u8; 6], [u8; 6]) = (octets(&mut r), octets(&mut r));
        let (iat, rat) = (r.octet() & 1, r.octet() & 1);
        let address = |kind: u8, a: [u8; 6]| [kind, a[0], a[1], a[2], a[3], a[4], a[5]];
        let number = u128::from_le_bytes;
        let rust = reference::c1(number(k), number(nonce), &preq, &pres, iat, &backwards(ia), rat, &backwards(ra));
        assert_eq!(number(c1(&k, &nonce, &preq, &pres, &address(iat, ia), &address(rat, ra))), rust);
        assert_eq!(number(s1(&k, &nonce, &other)), reference::s1(number(k), number(nonce), number(other)));
    }
}

/// Every value of every field that decides.
#[test]
fn features_are_read_and_written() {
    for io in 0..=255 {
        for oob in 0..=255 {
            let given =
                Features { io, oob, auth_req: io ^ 0x5a, key_size: oob, initiator_keys: io, responder_keys: oob };
            let payload = [io, oob, io ^ 0x5a, oob, io, oob];
            let right = io <= 4 && oob <= 1;
            assert_eq!(write_features(given), if right { Ok(payload) } else { Err(Refusal(refusal::BAD_FEATURES)) });
            let right = right && (7..=16).contains(&oob);
            assert_eq!(read_features(&payload), if right { Ok(given) } else { Err(Refusal(refusal::BAD_FEATURES)) });
        }
    }
    for key_size in 0..=255 {
        let given = Features { io: 4, oob: 1, auth_req: 5, key_size, initiator_keys: 3, responder_keys: 3 };
        let payload = write_features(given).expect("any key size is written");
        let right = (7..=16).contains(&key_size);
        assert_eq!(read_features(&payload), if right { Ok(given) } else { Err(Refusal(refusal::BAD_FEATURES)) });
        assert_eq!(read_features(&payload[..5]), Err(Refusal(refusal::FEATURES_CUT)));
    }
}
