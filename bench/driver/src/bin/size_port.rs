//! A new machine of either role and one step of it, through the archive, all of it from the input: for its size.

use std::io::{Read, Write};

use legacy_pairing::{size, Input, Machine, Role};

fn main() {
    let mut octets = [0; 1024];
    let count = std::io::stdin().read(&mut octets).unwrap_or(0);
    let role = if octets[0] == 0 { Role::Terminal } else { Role::Head };
    let part = |at: usize| std::array::from_fn(|i| octets[at + i]);
    let mut list = [0; size::CALL_LIST];
    if let Ok(mut machine) = Machine::new(role, &part(1), &part(8), &octets[16..22]) {
        let random: [u8; 16] = std::array::from_fn(|i| octets[32 + i]);
        let input = match octets[24] {
            0 => Input::LinkEncryptedResult(octets[25] == 1),
            1 => Input::PassKeyInput(u32::from(octets[25])),
            2 => Input::OobDataReceived(random),
            3 => Input::PassKeyConfirm,
            4 => Input::PassKeyCancel,
            code => Input::Command(code - 4, &octets[48..48 + usize::from(octets[26] & 31)]),
        };
        let _ = machine.step(input, &octets[128..count.max(128)], &mut list);
        let _ = std::io::stdout().write_all(machine.record());
    }
    let _ = std::io::stdout().write_all(&list);
}
