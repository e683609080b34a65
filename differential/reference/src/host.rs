//! The host: lists each call, takes its answer, and leaves the Rust by an unwind where answers
//! end or are refused. It is `PairingOps` and the random generator at once.

use std::cell::RefCell;
use std::panic::resume_unwind;

use bt_hci::param::ConnHandle;
use rand_core::{CryptoRng, RngCore};

use crate::calls;
use crate::connection::{ConnectionEvent, SecurityLevel};
use crate::pool::Pool;
use crate::security_manager::crypto::{PublicKey, SecretKey};
use crate::security_manager::pairing::PairingOps;
use crate::security_manager::types::BondingFlag;
use crate::security_manager::{address, TxPacket};
use crate::{Address, BondInformation, Error, LongTermKey};

/// Why an answer was refused.
#[derive(Clone, Copy, Debug, PartialEq, Eq)]
pub enum Cause {
    Kind,
    Cut,
    Value,
}

/// How the host leaves the Rust in the middle of a step.
pub enum Leave {
    Wants,
    Refused(u8, Cause),
}

struct Desk<'a> {
    answers: &'a [u8],
    read: usize,
    list: Vec<u8>,
}

/// One step's host. It is lent to the Rust twice, as the operations and as the generator.
pub struct Host<'a> {
    desk: RefCell<Desk<'a>>,
    /// The phase in which the step began: tells the draws apart.
    phase: u8,
}

impl<'a> Host<'a> {
    pub fn new(phase: u8, answers: &'a [u8]) -> Self {
        let desk = Desk { answers, read: 0, list: Vec::with_capacity(164) };
        Self { desk: RefCell::new(desk), phase }
    }

    /// Octets read, and the calls listed.
    pub fn counts(self) -> (usize, Vec<u8>) {
        let desk = self.desk.into_inner();
        (desk.read, desk.list)
    }

    /// Lists a call and takes the body of its answer.
    fn call<const N: usize>(&self, code: u8, body: &[u8]) -> [u8; N] {
        match self.desk.borrow_mut().take(code, body) {
            Ok(answer) => answer,
            Err(leave) => resume_unwind(Box::new(leave)),
        }
    }

    /// A call that is answered by a verdict alone.
    fn tell(&self, code: u8, body: &[u8]) -> Result<(), Error> {
        verdict(self.call::<1>(code, body)[0])
    }

    fn yes(&self, code: u8) -> bool {
        self.call::<1>(code, &[])[0] == 1
    }

    /// The call that entering Error makes; its fate does not matter.
    pub fn pairing_failed(&self, kind: u8, detail: u8) {
        let _ = self.tell(0x20, &[kind, detail]);
    }
}

impl Desk<'_> {
    fn take<const N: usize>(&mut self, code: u8, body: &[u8]) -> Result<[u8; N], Leave> {
        let kind = calls::find(code).filter(|k| k.body == body.len() && k.answer == N);
        assert!(kind.is_some(), "call {code:02x} with a body of {} octets", body.len());
        self.list.push(code);
        self.list.extend_from_slice(body);
        let rest = &self.answers[self.read..];
        let Some((&found, rest)) = rest.split_first() else {
            return Err(Leave::Wants);
        };
        if found != code {
            return Err(Leave::Refused(code, Cause::Kind));
        }
        let Some(answer) = rest.first_chunk::<N>() else {
            return Err(Leave::Refused(code, Cause::Cut));
        };
        if calls::forbidden(code, answer) {
            return Err(Leave::Refused(code, Cause::Value));
        }
        self.read += 1 + N;
        Ok(*answer)
    }
}

/// Document 01's verdicts: 0 done, 1 out of memory, others a host error with that octet.
fn verdict(octet: u8) -> Result<(), Error> {
    match octet {
        0 => Ok(()),
        1 => Err(Error::OutOfMemory),
        other => Err(Error::Hci(bt_hci::param::Error(other))),
    }
}

/// An error as the failed body's kind and detail; none for an error that pairing cannot give.
pub fn failed_body(error: &Error) -> Option<[u8; 2]> {
    match error {
        Error::Security(reason) => Some([1, (*reason).into()]),
        Error::InvalidState => Some([2, 0]),
        Error::InvalidValue => Some([3, 0]),
        Error::OutOfMemory => Some([4, 0]),
        Error::Hci(host) => Some([5, host.0]),
        _ => None,
    }
}

/// The operations that the machines ask of the host.
pub struct Ops<'a, 'b>(pub &'a Host<'b>);

impl PairingOps<Pool> for Ops<'_, '_> {
    fn try_send_packet(&mut self, packet: TxPacket<Pool>) -> Result<(), Error> {
        self.0.tell(packet.code(), packet.payload())
    }

    fn find_bond(&self) -> Option<BondInformation> {
        self.0.yes(0x30).then(|| BondInformation::from_octets(&[0; calls::BOND]))
    }

    fn try_enable_bonded_encryption(&mut self) -> Result<Option<BondInformation>, Error> {
        let answer = self.0.call::<53>(0x3b, &[]);
        verdict(answer[0])?;
        Ok((answer[1] == 1).then(|| BondInformation::from_octets(&answer[2..])))
    }

    fn try_enable_encryption(
        &mut self,
        ltk: &LongTermKey,
        security_level: SecurityLevel,
        is_bonded: bool,
        ediv: u16,
        rand: [u8; 8],
        encryption_key_len: u8,
    ) -> Result<BondInformation, Error> {
        assert!(!is_bonded && ediv == 0 && rand == [0; 8], "more than the body of call 3a holds");
        let mut body = [0; 18];
        body[..16].copy_from_slice(&ltk.to_le_bytes());
        body[16] = security_level.0;
        body[17] = encryption_key_len;
        let answer = self.0.call::<52>(0x3a, &body);
        verdict(answer[0])?;
        Ok(BondInformation::from_octets(&answer[1..]))
    }

    fn try_update_bond_information(&mut self, bond: &BondInformation) -> Result<(), Error> {
        self.0.tell(0x3c, &bond.to_octets())
    }

    fn connection_handle(&mut self) -> ConnHandle {
        unimplemented!("document 01 has no such call")
    }

    fn try_send_connection_event(&mut self, event: ConnectionEvent) -> Result<(), Error> {
        match event {
            ConnectionEvent::PairingFailed(error) => match failed_body(&error) {
                Some(body) => self.0.tell(0x20, &body),
                None => unimplemented!("document 01 has no number for {error:?}"),
            },
            ConnectionEvent::PairingComplete { security_level, bond } => {
                let mut body = [0; 53];
                body[0] = security_level.0;
                if let Some(bond) = bond {
                    body[1] = 1;
                    body[2..].copy_from_slice(&bond.to_octets());
                }
                self.0.tell(0x21, &body)
            }
            ConnectionEvent::PassKeyDisplay(passkey) => self.0.tell(0x22, &passkey.value().to_le_bytes()),
            ConnectionEvent::PassKeyInput => self.0.tell(0x23, &[]),
            ConnectionEvent::BondLost => self.0.tell(0x24, &[]),
            ConnectionEvent::OobRequest => self.0.tell(0x25, &[]),
            other => unimplemented!("document 01 has no event {other:?}"),
        }
    }

    fn bonding_flag(&self) -> BondingFlag {
        if self.0.yes(0x33) {
            BondingFlag::Bonding
        } else {
            BondingFlag::NoBonding
        }
    }

    fn oob_available(&self) -> bool {
        self.0.yes(0x34)
    }

    fn passkey(&self) -> Option<u32> {
        unimplemented!("document 01 has no such call")
    }

    fn secret_key(&self) -> &SecretKey {
        unimplemented!("document 01 has no such call")
    }

    fn public_key(&self) -> &PublicKey {
        unimplemented!("document 01 has no such call")
    }

    fn local_irk(&self) -> [u8; 16] {
        self.0.call(0x31, &[])
    }

    fn local_identity_address(&self) -> Result<Address, Error> {
        let answer = self.0.call::<8>(0x32, &[]);
        verdict(answer[0])?;
        Ok(address(&answer[1..]))
    }
}

/// The generator: gives the words that make the unchanged code draw the answered value.
///
/// Up to WaitingPairingRandom 16 octets are a nonce and a word is the passkey; later 16 octets are
/// the LTK, a word EDIV and 8 octets Rand. Any other draw panics and is reported.
pub struct Draws<'a, 'b>(pub &'a Host<'b>);

impl Draws<'_, '_> {
    fn is_early(&self) -> bool {
        self.0.phase <= 4
    }
}

impl RngCore for Draws<'_, '_> {
    fn next_u32(&mut self) -> u32 {
        if self.is_early() {
            // Uniform over 0 to 999,999 takes the high word of the product with 1,000,000:
            // the least word whose product reaches the passkey's stretch is never drawn again.
            let passkey = u32::from_le_bytes(self.0.call(0x36, &[]));
            ((u64::from(passkey) << 32).div_ceil(1_000_000)) as u32
        } else {
            u32::from(u16::from_le_bytes(self.0.call(0x38, &[])))
        }
    }

    fn next_u64(&mut self) -> u64 {
        unimplemented!("no draw of 64 bits")
    }

    fn fill_bytes(&mut self, dest: &mut [u8]) {
        match (dest.len(), self.is_early()) {
            (16, true) => dest.copy_from_slice(&self.0.call::<16>(0x35, &[])),
            (16, false) => dest.copy_from_slice(&self.0.call::<16>(0x37, &[])),
            (8, false) => dest.copy_from_slice(&self.0.call::<8>(0x39, &[])),
            (length, _) => unimplemented!("no draw of {length} octets here"),
        }
    }

    fn try_fill_bytes(&mut self, dest: &mut [u8]) -> Result<(), rand_core::Error> {
        self.fill_bytes(dest);
        Ok(())
    }
}

impl CryptoRng for Draws<'_, '_> {}
