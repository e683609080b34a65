//! The machine record of the step lines: where its fields stand and which records are canonical.

use crate::step::Role;

pub const LENGTH: usize = 161;

pub type Record = [u8; LENGTH];

/// A field of the record: name, place, length.
pub struct Field {
    pub name: &'static str,
    pub at: usize,
    pub length: usize,
}

const fn field(name: &'static str, at: usize, length: usize) -> Field {
    Field { name, at, length }
}

pub const PHASE: usize = 0;
pub const DETAIL: usize = 1;
pub const REASON: usize = 2;
pub const STORED: usize = 3;
pub const PREQ: usize = 4;
pub const PRES: usize = 11;
pub const TK: usize = 18;
pub const LOCAL_NONCE: usize = 34;
pub const PEER_CONFIRM: usize = 50;
pub const RECEIVED_LTK: usize = 66;
pub const LOCAL_ADDRESS: usize = 82;
pub const PEER_ADDRESS: usize = 89;
pub const LOCAL_FEATURES: usize = 96;
pub const PEER_FEATURES: usize = 102;
pub const METHOD: usize = 108;
pub const BOND_PRESENT: usize = 109;
pub const BOND: usize = 110;

pub static FIELDS: [Field; 22] = [
    field("phase", PHASE, 1),
    field("ReceivingKeys phase or Error kind", DETAIL, 1),
    field("Error detail", REASON, 1),
    field("confirm_bytes present", STORED, 1),
    field("preq", PREQ, 7),
    field("pres", PRES, 7),
    field("tk", TK, 16),
    field("local_nonce", LOCAL_NONCE, 16),
    field("peer_confirm or confirm_bytes", PEER_CONFIRM, 16),
    field("received_ltk", RECEIVED_LTK, 16),
    field("local_address", LOCAL_ADDRESS, 7),
    field("peer_address", PEER_ADDRESS, 7),
    field("local_features", LOCAL_FEATURES, 6),
    field("peer_features", PEER_FEATURES, 6),
    field("pairing_method", METHOD, 1),
    field("bond present", BOND_PRESENT, 1),
    field("bond ltk", BOND, 16),
    field("bond ediv, rand", BOND + 16, 10),
    field("bond is_bonded", BOND + 26, 1),
    field("bond level", BOND + 27, 1),
    field("bond irk", BOND + 28, 16),
    field("bond address", BOND + 44, 7),
];

/// The phases' names, short; phase 0 is the head's request or the terminal's response.
pub const PHASES: [&str; 11] = [
    "WaitingPairingStart",
    "WaitingPassKeyInput",
    "WaitingOobData",
    "WaitingPairingConfirm",
    "WaitingPairingRandom",
    "WaitingLinkEncrypted",
    "WaitingIdentitityInformation",
    "WaitingIdentitityAddressInformation",
    "ReceivingKeys",
    "Success",
    "Error",
];

/// The stretches between preq and received_ltk that a phase holds.
fn held(role: Role, m: &Record) -> &'static [(usize, usize)] {
    match (m[PHASE], m[STORED], role) {
        (0, _, Role::Central) => &[(PREQ, 7)],
        (1, 0, _) | (2, _, _) => &[(PREQ, 14)],
        (1, _, _) => &[(PREQ, 14), (PEER_CONFIRM, 16)],
        (3, _, _) => &[(PREQ, 46)],
        (4, _, _) => &[(PREQ, 62)],
        (8, _, _) => &[(RECEIVED_LTK, 16)],
        _ => &[],
    }
}

/// Whether octets 1 to 3 are what the phase allows.
fn head_is_canonical(m: &Record) -> bool {
    let details = match (m[PHASE], m[DETAIL], m[REASON]) {
        (8, _, reason) => reason == 0,
        (10, 1, reason) => reason <= 0x10,
        (10, 2..=4, reason) => reason == 0,
        (10, kind, _) => kind == 5,
        (_, detail, reason) => detail == 0 && reason == 0,
    };
    details && m[STORED] <= u8::from(m[PHASE] == 1)
}

/// Whether the pairing data are some that the Rust can hold, the bond zero where absent.
fn data_are_legal(m: &Record) -> bool {
    let features = |at: usize| m[at] <= 4 && m[at + 1] <= 1;
    let bond = match m[BOND_PRESENT] {
        0 => m[BOND..].iter().all(|&o| o == 0),
        1 => m[BOND + 26] <= 1,
        _ => false,
    };
    features(LOCAL_FEATURES) && features(PEER_FEATURES) && m[METHOD] <= 6 && bond
}

/// The places between preq and received_ltk that a phase does not hold.
fn unheld(role: Role, m: &Record) -> impl Iterator<Item = usize> {
    let held = held(role, m);
    (PREQ..LOCAL_ADDRESS).filter(|i| !held.iter().any(|&(at, length)| (at..at + length).contains(i)))
}

/// Whether a record is well formed: one that some machine of the Rust writes.
pub fn is_canonical(role: Role, m: &Record) -> bool {
    m[PHASE] <= 10 && head_is_canonical(m) && data_are_legal(m) && unheld(role, m).all(|i| m[i] == 0)
}

/// Writes zeros into what the phase does not hold.
pub fn clear_unheld(role: Role, m: &mut Record) {
    for i in unheld(role, m) {
        m[i] = 0;
    }
}
