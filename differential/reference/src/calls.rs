//! Document 01's host calls: what each kind is called, how long its body and its answer are, and
//! which values an answer must not have.

/// One kind of call. `body` and `answer` are lengths without the octet of kind.
pub struct Kind {
    pub code: u8,
    pub name: &'static str,
    pub body: usize,
    pub answer: usize,
    /// Whether the answer begins with a verdict.
    pub verdict: bool,
}

const fn kind(code: u8, name: &'static str, body: usize, answer: usize, verdict: bool) -> Kind {
    Kind { code, name, body, answer, verdict }
}

pub const BOND: usize = 51;

pub static KINDS: [Kind; 26] = [
    kind(0x02, "PairingResponse", 6, 1, true),
    kind(0x03, "PairingConfirm", 16, 1, true),
    kind(0x04, "PairingRandom", 16, 1, true),
    kind(0x06, "EncryptionInformation", 16, 1, true),
    kind(0x07, "CentralIdentification", 10, 1, true),
    kind(0x08, "IdentityInformation", 16, 1, true),
    kind(0x09, "IdentityAddressInformation", 7, 1, true),
    kind(0x20, "PairingFailed", 2, 1, true),
    kind(0x21, "PairingComplete", 53, 1, true),
    kind(0x22, "PassKeyDisplay", 4, 1, true),
    kind(0x23, "PassKeyInput", 0, 1, true),
    kind(0x24, "BondLost", 0, 1, true),
    kind(0x25, "OobRequest", 0, 1, true),
    kind(0x30, "bond found", 0, 1, false),
    kind(0x31, "local IRK", 0, 16, false),
    kind(0x32, "identity address", 0, 8, true),
    kind(0x33, "bonding flag", 0, 1, false),
    kind(0x34, "OOB available", 0, 1, false),
    kind(0x35, "nonce", 0, 16, false),
    kind(0x36, "passkey", 0, 4, false),
    kind(0x37, "LTK", 0, 16, false),
    kind(0x38, "EDIV", 0, 2, false),
    kind(0x39, "Rand", 0, 8, false),
    kind(0x3a, "encrypt", 18, 1 + BOND, true),
    kind(0x3b, "bonded encryption", 0, 2 + BOND, true),
    kind(0x3c, "update bond", BOND, 1, true),
];

pub fn find(code: u8) -> Option<&'static Kind> {
    KINDS.iter().find(|k| k.code == code)
}

/// Whether a whole answer body has a value that document 01 forbids.
pub fn forbidden(code: u8, body: &[u8]) -> bool {
    let bond = |at: usize| body[at + 26] > 1;
    match code {
        0x30 | 0x33 | 0x34 => body[0] > 1,
        0x36 => u32::from_le_bytes([body[0], body[1], body[2], body[3]]) > 999_999,
        0x3a => body[0] == 0 && bond(1),
        0x3b => body[0] == 0 && (body[1] > 1 || (body[1] == 1 && bond(2))),
        _ => false,
    }
}

/// A call list cut into records of kind and body; none where a kind is unknown or a body cut.
pub fn records(list: &[u8]) -> Option<Vec<(&'static Kind, &[u8])>> {
    let (mut rest, mut found) = (list, Vec::new());
    while let Some((&code, body)) = rest.split_first() {
        let kind = find(code)?;
        let (body, after) = body.split_at_checked(kind.body)?;
        found.push((kind, body));
        rest = after;
    }
    Some(found)
}
