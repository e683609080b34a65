//! A new machine of either role and one step of it, of the unchanged Rust, all of it from the input: for its size.

use std::hint::black_box;
use std::io::{Read, Write};

use reference::native::{Answers, Desk, Draws, Machine};
use reference::{Input, Role};

/// Writes what it is given into a list, one after another.
struct List {
    octets: [u8; 164],
    len: usize,
}

impl List {
    fn push(&mut self, kind: u8, body: &[u8]) {
        if let Some(room) = self.octets.get_mut(self.len..self.len + 1 + body.len()) {
            room[0] = kind;
            room[1..].copy_from_slice(body);
            self.len += 1 + body.len();
        }
    }
}

impl Desk for List {
    fn packet(&mut self, code: u8, payload: &[u8]) {
        self.push(code, payload);
    }

    fn event(&mut self, kind: u8) {
        self.push(kind, &[]);
    }

    fn encryption(&mut self, key: &[u8; 16], level: u8, key_size: u8) {
        self.push(0x3a, key);
        self.push(level, &[key_size]);
    }
}

fn main() {
    let mut octets = [0; 1024];
    let count = std::io::stdin().read(&mut octets).unwrap_or(0);
    let role = if octets[0] == 0 { Role::Central } else { Role::Peripheral };
    let part = |at: usize| std::array::from_fn(|i| octets[at + i]);
    let features = [octets[16].min(4), octets[17] & 1, octets[18], octets[19], octets[20], octets[21]];
    let mut machine = Machine::new(role, &part(1), &part(8), &features);
    let random: [u8; 16] = std::array::from_fn(|i| octets[32 + i]);
    let input = match octets[24] {
        0 => Input::LinkEncryptedResult(octets[25] == 1),
        1 => Input::PassKeyInput(u32::from(octets[25])),
        2 => Input::OobDataReceived(random),
        3 => Input::PassKeyConfirm,
        4 => Input::PassKeyCancel,
        code => Input::Command(code % 14 + 1),
    };
    let answers = Answers::new(random, &part(1), &part(8), octets[27] == 1, octets[28] == 1);
    let mut draws = Draws { octets: random, word: count as u32 };
    let mut list = List { octets: [0; 164], len: 0 };
    let payload = &octets[48..48 + usize::from(octets[26] & 31)];
    // Twice, so that the machine may stand in any state.
    for _ in 0..2 {
        machine.step(black_box(input), payload, &answers, &mut draws, &mut list);
        black_box(&mut machine);
    }
    let _ = std::io::stdout().write_all(&list.octets);
}
