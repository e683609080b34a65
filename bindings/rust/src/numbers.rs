//! The numbers of include/legacy_pairing.h by its names, a module for each prefix. That file says what they
//! mean, what the body of each call holds and what its answer. `checks/numbers` holds both files, and the
//! definitions of the crates, to the same numbers.

/// The version of this crate: 0x00, then major, minor and patch, an octet each. The linked library's is
/// [`version`](crate::version).
pub const VERSION: u32 = 0x000200;

/// The numbers of roles.
pub(crate) mod role {
    pub const TERMINAL: u8 = 0;
    pub const HEAD: u8 = 1;
}

/// Sizes, in octets.
pub mod size {
    /// A machine's record.
    pub const MACHINE: usize = 161;
    /// The calls of the longest step; a list may be longer.
    pub const CALL_LIST: usize = 164;
    /// Room for the answers to any step. Not proved: counted over the steps of both roles.
    pub const ANSWERS: usize = 67;
    /// An address with its kind.
    pub const ADDRESS: usize = 7;
    /// Features: the payload of a Pairing Request or Response.
    pub const FEATURES: usize = 6;
    /// A whole Pairing Request or Response: its code, then features.
    pub const PAIRING_PDU: usize = 7;
    /// A key, an IRK, a nonce, a confirm value, an out-of-band value.
    pub const VALUE: usize = 16;
    pub const PASS_KEY: usize = 4;
    pub const EDIV: usize = 2;
    pub const RAND: usize = 8;
    pub const BOND: usize = 51;
    pub const VERDICT: usize = 1;
    /// The least encryption key size that features may have.
    pub const LEAST_KEY: usize = 7;
    /// The largest.
    pub const LARGEST_KEY: usize = 16;
}

/// How a function comes out that is not refused.
pub(crate) mod outcome {
    pub const DONE: u8 = 0;
    pub const WANTS: u8 = 255;
}

/// The numbers of a [`Refusal`](crate::Refusal).
pub mod refusal {
    pub const LIST_TOO_SHORT: u8 = 1;
    pub const NO_COMMAND: u8 = 2;
    pub const BAD_ANSWER: u8 = 3;
    pub const FEATURES_CUT: u8 = 4;
    pub const BAD_FEATURES: u8 = 5;
    pub const BAD_CALL_LIST: u8 = 6;
    pub const MACHINE_LENGTH: u8 = 20;
    pub const MACHINE_PHASE: u8 = 21;
    pub const MACHINE_FEATURES: u8 = 22;
    pub const MACHINE_METHOD: u8 = 23;
    pub const MACHINE_BOND: u8 = 24;
    pub const NOT_CANONICAL: u8 = 25;
    pub const NO_ROLE: u8 = 26;
    pub const NO_INPUT: u8 = 27;
    pub const BAD_EVENT: u8 = 28;
    pub const WRONG_LENGTH: u8 = 29;
    pub const NO_CALL: u8 = 30;
}

/// An address: where its parts stand, and its kinds.
pub mod address {
    pub const KIND_OFFSET: usize = 0;
    pub const OCTETS_OFFSET: usize = 1;
    pub const PUBLIC: u8 = 0;
    pub const RANDOM: u8 = 1;
}

/// Features: where their fields stand.
pub mod features {
    pub const IO_OFFSET: usize = 0;
    pub const OOB_OFFSET: usize = 1;
    pub const AUTH_REQ_OFFSET: usize = 2;
    pub const KEY_SIZE_OFFSET: usize = 3;
    pub const INITIATOR_KEYS_OFFSET: usize = 4;
    pub const RESPONDER_KEYS_OFFSET: usize = 5;
}

/// I/O capabilities.
pub mod io {
    pub const DISPLAY_ONLY: u8 = 0;
    pub const DISPLAY_YES_NO: u8 = 1;
    pub const KEYBOARD_ONLY: u8 = 2;
    pub const NO_INPUT_NO_OUTPUT: u8 = 3;
    pub const KEYBOARD_DISPLAY: u8 = 4;
}

/// The bits of AuthReq.
pub mod auth {
    pub const BONDING_MASK: u8 = 0x03;
    pub const BONDING: u8 = 0x01;
    pub const MITM: u8 = 0x04;
    pub const SECURE_CONNECTIONS: u8 = 0x08;
    pub const KEYPRESS: u8 = 0x10;
    pub const CT2: u8 = 0x20;
}

/// The bits of the keys that an end gives.
pub mod keys {
    pub const ENCRYPTION: u8 = 0x01;
    pub const IDENTITY: u8 = 0x02;
    pub const SIGNING: u8 = 0x04;
    pub const LINK: u8 = 0x08;
}

/// Command codes. Those of packets that a machine sends are kinds of calls, [`call`].
pub mod command {
    pub const PAIRING_REQUEST: u8 = 0x01;
    pub const PAIRING_FAILED: u8 = 0x05;
    pub const MAX: u8 = 0x0E;
}

/// The numbers of events.
pub(crate) mod input {
    pub const LINK_ENCRYPTED_RESULT: u16 = 0x100;
    pub const PASS_KEY_CONFIRM: u16 = 0x101;
    pub const PASS_KEY_CANCEL: u16 = 0x102;
    pub const PASS_KEY_INPUT: u16 = 0x103;
    pub const OOB_DATA_RECEIVED: u16 = 0x104;
}

/// Verdicts, and where one stands in an answer.
pub mod verdict {
    pub const DONE: u8 = 0;
    pub const OUT_OF_MEMORY: u8 = 1;
    pub const OFFSET: usize = 0;
}

/// The yes/no octets of answers and bodies.
pub const NO: u8 = 0;
pub const YES: u8 = 1;

/// Security levels. Another octet is the host's, and is passed on.
pub mod level {
    pub const NONE: u8 = 0;
    pub const ENCRYPTED: u8 = 1;
    pub const AUTHENTICATED: u8 = 2;
}

/// The kinds of calls; the sizes of their bodies and answers; and where the parts of these stand.
pub mod call {
    pub const SEND_PAIRING_RESPONSE: u8 = 0x02;
    pub const SEND_PAIRING_RESPONSE_BODY_SIZE: usize = 6;
    pub const SEND_PAIRING_RESPONSE_ANSWER_SIZE: usize = 1;
    pub const SEND_PAIRING_CONFIRM: u8 = 0x03;
    pub const SEND_PAIRING_CONFIRM_BODY_SIZE: usize = 16;
    pub const SEND_PAIRING_CONFIRM_ANSWER_SIZE: usize = 1;
    pub const SEND_PAIRING_RANDOM: u8 = 0x04;
    pub const SEND_PAIRING_RANDOM_BODY_SIZE: usize = 16;
    pub const SEND_PAIRING_RANDOM_ANSWER_SIZE: usize = 1;
    pub const SEND_ENCRYPTION_INFORMATION: u8 = 0x06;
    pub const SEND_ENCRYPTION_INFORMATION_BODY_SIZE: usize = 16;
    pub const SEND_ENCRYPTION_INFORMATION_ANSWER_SIZE: usize = 1;
    pub const SEND_CENTRAL_IDENTIFICATION: u8 = 0x07;
    pub const SEND_CENTRAL_IDENTIFICATION_BODY_SIZE: usize = 10;
    pub const SEND_CENTRAL_IDENTIFICATION_ANSWER_SIZE: usize = 1;
    pub const SEND_IDENTITY_INFORMATION: u8 = 0x08;
    pub const SEND_IDENTITY_INFORMATION_BODY_SIZE: usize = 16;
    pub const SEND_IDENTITY_INFORMATION_ANSWER_SIZE: usize = 1;
    pub const SEND_IDENTITY_ADDRESS_INFORMATION: u8 = 0x09;
    pub const SEND_IDENTITY_ADDRESS_INFORMATION_BODY_SIZE: usize = 7;
    pub const SEND_IDENTITY_ADDRESS_INFORMATION_ANSWER_SIZE: usize = 1;
    pub const EVENT_PAIRING_FAILED: u8 = 0x20;
    pub const EVENT_PAIRING_FAILED_BODY_SIZE: usize = 2;
    pub const EVENT_PAIRING_FAILED_ANSWER_SIZE: usize = 1;
    pub const EVENT_PAIRING_COMPLETE: u8 = 0x21;
    pub const EVENT_PAIRING_COMPLETE_BODY_SIZE: usize = 53;
    pub const EVENT_PAIRING_COMPLETE_ANSWER_SIZE: usize = 1;
    pub const EVENT_PAIRING_COMPLETE_BODY_LEVEL_OFFSET: usize = 0;
    pub const EVENT_PAIRING_COMPLETE_BODY_PRESENT_OFFSET: usize = 1;
    pub const EVENT_PAIRING_COMPLETE_BODY_BOND_OFFSET: usize = 2;
    pub const EVENT_PASS_KEY_DISPLAY: u8 = 0x22;
    pub const EVENT_PASS_KEY_DISPLAY_BODY_SIZE: usize = 4;
    pub const EVENT_PASS_KEY_DISPLAY_ANSWER_SIZE: usize = 1;
    pub const EVENT_PASS_KEY_INPUT: u8 = 0x23;
    pub const EVENT_PASS_KEY_INPUT_BODY_SIZE: usize = 0;
    pub const EVENT_PASS_KEY_INPUT_ANSWER_SIZE: usize = 1;
    pub const EVENT_BOND_LOST: u8 = 0x24;
    pub const EVENT_BOND_LOST_BODY_SIZE: usize = 0;
    pub const EVENT_BOND_LOST_ANSWER_SIZE: usize = 1;
    pub const EVENT_OOB_REQUEST: u8 = 0x25;
    pub const EVENT_OOB_REQUEST_BODY_SIZE: usize = 0;
    pub const EVENT_OOB_REQUEST_ANSWER_SIZE: usize = 1;
    pub const ASK_FIND_BOND: u8 = 0x30;
    pub const ASK_FIND_BOND_BODY_SIZE: usize = 0;
    pub const ASK_FIND_BOND_ANSWER_SIZE: usize = 1;
    pub const ASK_LOCAL_IRK: u8 = 0x31;
    pub const ASK_LOCAL_IRK_BODY_SIZE: usize = 0;
    pub const ASK_LOCAL_IRK_ANSWER_SIZE: usize = 16;
    pub const ASK_IDENTITY_ADDRESS: u8 = 0x32;
    pub const ASK_IDENTITY_ADDRESS_BODY_SIZE: usize = 0;
    pub const ASK_IDENTITY_ADDRESS_ANSWER_SIZE: usize = 8;
    pub const ASK_IDENTITY_ADDRESS_ANSWER_ADDRESS_OFFSET: usize = 1;
    pub const ASK_BONDING_FLAG: u8 = 0x33;
    pub const ASK_BONDING_FLAG_BODY_SIZE: usize = 0;
    pub const ASK_BONDING_FLAG_ANSWER_SIZE: usize = 1;
    pub const ASK_OOB_AVAILABLE: u8 = 0x34;
    pub const ASK_OOB_AVAILABLE_BODY_SIZE: usize = 0;
    pub const ASK_OOB_AVAILABLE_ANSWER_SIZE: usize = 1;
    pub const DRAW_NONCE: u8 = 0x35;
    pub const DRAW_NONCE_BODY_SIZE: usize = 0;
    pub const DRAW_NONCE_ANSWER_SIZE: usize = 16;
    pub const DRAW_PASS_KEY: u8 = 0x36;
    pub const DRAW_PASS_KEY_BODY_SIZE: usize = 0;
    pub const DRAW_PASS_KEY_ANSWER_SIZE: usize = 4;
    pub const DRAW_LTK: u8 = 0x37;
    pub const DRAW_LTK_BODY_SIZE: usize = 0;
    pub const DRAW_LTK_ANSWER_SIZE: usize = 16;
    pub const DRAW_EDIV: u8 = 0x38;
    pub const DRAW_EDIV_BODY_SIZE: usize = 0;
    pub const DRAW_EDIV_ANSWER_SIZE: usize = 2;
    pub const DRAW_RAND: u8 = 0x39;
    pub const DRAW_RAND_BODY_SIZE: usize = 0;
    pub const DRAW_RAND_ANSWER_SIZE: usize = 8;
    pub const ENABLE_ENCRYPTION: u8 = 0x3A;
    pub const ENABLE_ENCRYPTION_BODY_SIZE: usize = 18;
    pub const ENABLE_ENCRYPTION_ANSWER_SIZE: usize = 52;
    pub const ENABLE_ENCRYPTION_BODY_KEY_OFFSET: usize = 0;
    pub const ENABLE_ENCRYPTION_BODY_LEVEL_OFFSET: usize = 16;
    pub const ENABLE_ENCRYPTION_BODY_KEY_SIZE_OFFSET: usize = 17;
    pub const ENABLE_ENCRYPTION_ANSWER_BOND_OFFSET: usize = 1;
    pub const ENABLE_BONDED_ENCRYPTION: u8 = 0x3B;
    pub const ENABLE_BONDED_ENCRYPTION_BODY_SIZE: usize = 0;
    pub const ENABLE_BONDED_ENCRYPTION_ANSWER_SIZE: usize = 53;
    pub const ENABLE_BONDED_ENCRYPTION_ANSWER_PRESENT_OFFSET: usize = 1;
    pub const ENABLE_BONDED_ENCRYPTION_ANSWER_BOND_OFFSET: usize = 2;
    pub const UPDATE_BOND: u8 = 0x3C;
    pub const UPDATE_BOND_BODY_SIZE: usize = 51;
    pub const UPDATE_BOND_ANSWER_SIZE: usize = 1;
}

/// The largest passkey that is drawn or shown.
pub const PASS_KEY_MAX: u32 = 999_999;

/// Where the parts of a bond stand.
pub mod bond {
    pub const LTK_OFFSET: usize = 0;
    pub const EDIV_OFFSET: usize = 16;
    pub const RAND_OFFSET: usize = 18;
    pub const IS_BONDED_OFFSET: usize = 26;
    pub const LEVEL_OFFSET: usize = 27;
    pub const IRK_OFFSET: usize = 28;
    pub const ADDRESS_OFFSET: usize = 44;
}

/// The kinds of a [`Failure`](crate::Failure), and where its parts stand in the body of a call.
pub mod failure {
    pub const KIND_OFFSET: usize = 0;
    pub const DETAIL_OFFSET: usize = 1;
    pub const NONE: u8 = 0;
    pub const SECURITY: u8 = 1;
    pub const INVALID_STATE: u8 = 2;
    pub const INVALID_VALUE: u8 = 3;
    pub const OUT_OF_MEMORY: u8 = 4;
    pub const HOST: u8 = 5;
}

/// Reasons, Part H 3.5.5: the details of [`failure::SECURITY`].
pub mod reason {
    pub const SUCCESS: u8 = 0x00;
    pub const PASSKEY_ENTRY_FAILED: u8 = 0x01;
    pub const OOB_NOT_AVAILABLE: u8 = 0x02;
    pub const AUTHENTICATION_REQUIREMENTS: u8 = 0x03;
    pub const CONFIRM_VALUE_FAILED: u8 = 0x04;
    pub const PAIRING_NOT_SUPPORTED: u8 = 0x05;
    pub const SHORT_ENCRYPTION_KEY: u8 = 0x06;
    pub const COMMAND_NOT_SUPPORTED: u8 = 0x07;
    pub const UNSPECIFIED_REASON: u8 = 0x08;
    pub const REPEATED_ATTEMPTS: u8 = 0x09;
    pub const INVALID_PARAMETERS: u8 = 0x0A;
    pub const DHKEY_CHECK_FAILED: u8 = 0x0B;
    pub const NUMERIC_COMPARISON_FAILED: u8 = 0x0C;
    pub const BR_EDR_PAIRING_IN_PROGRESS: u8 = 0x0D;
    pub const GENERATION_NOT_ALLOWED: u8 = 0x0E;
    pub const KEY_REJECTED: u8 = 0x0F;
    pub const BUSY: u8 = 0x10;
}

/// The numbers of how a machine stands.
pub(crate) mod result {
    pub const PENDING: u8 = 0;
    pub const SUCCESS: u8 = 1;
    pub const FAILED: u8 = 2;
}

/// Octets of a machine's record that a host may read. The others are the machine's own.
pub mod machine {
    pub const LOCAL_ADDRESS_OFFSET: usize = 82;
    pub const PEER_ADDRESS_OFFSET: usize = 89;
    pub const LOCAL_FEATURES_OFFSET: usize = 96;
    pub const PEER_FEATURES_OFFSET: usize = 102;
    pub const METHOD_OFFSET: usize = 108;
    pub const BOND_PRESENT_OFFSET: usize = 109;
    pub const BOND_OFFSET: usize = 110;
}

/// Methods, in the record of a machine.
pub mod method {
    pub const JUST_WORKS: u8 = 0;
    pub const NUMERIC_COMPARISON: u8 = 1;
    pub const TERMINAL_DISPLAYS: u8 = 2;
    pub const HEAD_DISPLAYS: u8 = 3;
    pub const BOTH_INPUT: u8 = 4;
    pub const OUT_OF_BAND: u8 = 5;
    pub const BOTH_DISPLAY: u8 = 6;
}
