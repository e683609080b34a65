//! Child of util.rs: the pairing method as the machine record's number.

use super::{PairingMethod, PassKeyEntryAction};

/// PassKeyEntry with both displaying, which the choice never gives.
const BOTH_DISPLAY: PairingMethod = PairingMethod::PassKeyEntry {
    central: PassKeyEntryAction::Display,
    peripheral: PassKeyEntryAction::Display,
};

const METHODS: [PairingMethod; 7] = [
    PairingMethod::JustWorks,
    PairingMethod::NumericComparison,
    PairingMethod::CENTRAL_DISPLAYS,
    PairingMethod::PERIPHERAL_DISPLAYS,
    PairingMethod::BOTH_INPUT,
    PairingMethod::OutOfBand,
    BOTH_DISPLAY,
];

pub fn method(number: u8) -> PairingMethod {
    METHODS[usize::from(number)]
}

pub fn number(method: PairingMethod) -> u8 {
    METHODS.iter().position(|m| *m == method).map_or(0xff, |at| at as u8)
}
