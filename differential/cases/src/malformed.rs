//! Lines that are not step lines: a good line, spoilt by one rule at a time.

use reference::machine::{self, Record};
use reference::{lines, Input, Role, Step};

use crate::machines;
use crate::random::Random;
use crate::Sink;

/// A good step with short fields.
fn good(r: &mut Random, phase: Option<u8>) -> Step {
    let role = r.pick(&[Role::Central, Role::Peripheral]);
    let phase = phase.unwrap_or(r.below(11) as u8);
    let length = 1 + r.below(18);
    Step {
        role,
        list_len: 164,
        machine: machines::machine(r, role, phase),
        input: Input::Command(1 + r.below(14) as u8),
        payload: r.some(length),
        answers: r.some(length),
    }
}

fn fields(given: &Step) -> Vec<Vec<u8>> {
    let mut line = Vec::new();
    lines::push_step(&mut line, given);
    line.split(|&o| o == b' ').map(<[u8]>::to_vec).collect()
}

/// One malformed line.
pub fn line(r: &mut Random, sink: &mut Sink) {
    let spoilt = match r.below(12) {
        0..=4 => record(r),
        5..=9 => field(r),
        10 => separators(r),
        _ => whole(r),
    };
    sink.raw(&spoilt);
}

/// A record that is not canonical, or that the Rust cannot hold.
fn record(r: &mut Random) -> Vec<u8> {
    let phase = r.pick(&[0, 1, 1, 2, 3, 4, 5, 6, 7, 8, 8, 9, 10, 10]);
    let mut given = good(r, Some(phase));
    for _ in 0..1000 {
        let mut m = given.machine;
        spoil(r, &mut m);
        if !machine::is_canonical(given.role, &m) {
            given.machine = m;
            break;
        }
    }
    let mut line = Vec::new();
    lines::push_step(&mut line, &given);
    line
}

fn spoil(r: &mut Random, m: &mut Record) {
    let any = r.octet();
    let bad = r.above_one();
    match r.below(16) {
        0 => m[machine::PHASE] = 11 + r.below(245) as u8,
        1 => m[machine::METHOD] = 7 + r.below(249) as u8,
        2 => m[machine::STORED] = bad,
        3 => m[machine::STORED] = 1 - m[machine::STORED].min(1),
        4 => m[machine::BOND_PRESENT] = bad,
        5 => m[machine::BOND_PRESENT] = 0,
        6 => m[machine::BOND + 26] = bad,
        7 => m[r.pick(&[machine::LOCAL_FEATURES, machine::PEER_FEATURES])] = 5 + r.below(251) as u8,
        8 => m[r.pick(&[machine::LOCAL_FEATURES, machine::PEER_FEATURES]) + 1] = bad,
        9 => m[machine::DETAIL] = any,
        10 => m[machine::REASON] = any,
        11 => m[machine::BOND + r.below(51)] ^= 1,
        12 => m[machine::DETAIL..=machine::REASON].copy_from_slice(&[r.below(7) as u8, r.octet()]),
        _ => m[machine::PREQ + r.below(machine::LOCAL_ADDRESS - machine::PREQ)] ^= 1 << r.below(8),
    }
}

/// One field of another form.
fn field(r: &mut Random) -> Vec<u8> {
    let given = good(r, None);
    let mut f = fields(&given);
    let at = r.below(6);
    f[at] = match at {
        0 => r.pick(&["C", "P", "x", "", "cp", "-", "0"]).into(),
        1 => r.pick(&["", "4097", "9999", "00164", "10000", "-1", "+164", "a4", "0xa", "16 4", "164.", "-"]).into(),
        2 => octets(r, &f[2], false),
        3 => input(r),
        _ => octets(r, &f[at], true),
    };
    if at == 4 && r.chance(30) {
        f[3] = r.pick(&["l0", "l1", "k", "x", "i01000000", "o000102030405060708090a0b0c0d0e0f"]).into();
        f[4] = r.pick(&["00", "0102", "--", ""]).into();
    }
    f.join(&b' ')
}

/// Digits that are odd in number, of the wrong sort, or too many.
fn octets(r: &mut Random, text: &[u8], may_be_long: bool) -> Vec<u8> {
    let mut t = text.to_vec();
    let at = r.below(t.len());
    match r.below(7) {
        0 => t.push(b'0'),
        1 => {
            t.pop();
        }
        2 => t[at] = r.pick(b"ABCDEF"),
        3 => t[at] = r.pick(b"gxz-:/`@G,.\x00\xff"),
        4 => t.clear(),
        5 if may_be_long => t = vec![b'0'; 2 * 4097],
        _ => t.insert(0, b'-'),
    }
    t
}

fn input(r: &mut Random) -> Vec<u8> {
    let bad = [
        "",
        "c",
        "c1",
        "c001",
        "cAA",
        "c0g",
        "C01",
        "l",
        "l2",
        "l00",
        "L1",
        "k0",
        "K",
        "x1",
        "i",
        "i0100000",
        "i010000000",
        "i0100000A",
        "o",
        "o00",
        "o000102030405060708090a0b0c0d0e0",
        "o000102030405060708090a0b0c0d0e0f00",
        "o000102030405060708090A0b0c0d0e0f",
        "01",
        "-",
        "l-",
        "c-1",
        "c+1",
    ];
    r.pick(&bad).into()
}

/// Fields too few, too many, or with something else between.
fn separators(r: &mut Random) -> Vec<u8> {
    let f = fields(&good(r, None));
    let at = 1 + r.below(5);
    match r.below(7) {
        0 => [b" ".to_vec(), f.join(&b' ')].concat(),
        1 => [f.join(&b' '), b" ".to_vec()].concat(),
        2 => [f.join(&b' '), b" -".to_vec()].concat(),
        3 => [f.join(&b' '), b"\r".to_vec()].concat(),
        4 => f[..at].join(&b' '),
        5 => [f[..at].join(&b' '), f[at..].join(&b' ')].join(&b"  "[..]),
        _ => [f[..at].join(&b' '), f[at..].join(&b' ')].join(&b"\t"[..]),
    }
}

/// Whole lines: empty, of other content, or over 20,000 octets.
fn whole(r: &mut Random) -> Vec<u8> {
    match r.below(8) {
        0 => Vec::new(),
        1 => b" ".to_vec(),
        2 => b"malformed".to_vec(),
        3 => b"c 164".to_vec(),
        4 => {
            let length = r.pick(&[19_999, 20_000, 20_001, 40_000, 70_000]);
            vec![b'0'; length]
        }
        5 => {
            let f = fields(&good(r, None));
            let mut line = f.join(&b' ');
            line.resize(20_001, b'0');
            line
        }
        _ => {
            let length = 1 + r.below(60);
            r.some(length).into_iter().filter(|&o| o != b'\n').collect()
        }
    }
}
