//! What `choose_legacy_pairing_method` of the unchanged Rust chooses for every pair of feature records that differ in I/O, OOB
//! and MITM: a line for each pair, as `differential/methods` compares them.

/// By the machine record's number: JustWorks, none, the terminal shows, the head shows, both type, OOB.
const LETTERS: &[u8; 6] = b"J?CPBO";

/// No bonding, size 16, no keys.
fn features(io: u8, oob: u8, mitm: u8) -> [u8; 6] {
    [io, oob, mitm << 2, 16, 0, 0]
}

fn records() -> impl Iterator<Item = (u8, u8, u8)> {
    (0..5).flat_map(|io| (0..2).flat_map(move |oob| (0..2).map(move |mitm| (io, oob, mitm))))
}

fn main() {
    for (io, oob, mitm) in records() {
        for (head_io, head_oob, head_mitm) in records() {
            let number = reference::chosen_method(&features(io, oob, mitm), &features(head_io, head_oob, head_mitm));
            let letter = LETTERS.get(usize::from(number)).copied().unwrap_or(b'?');
            println!("{io}{oob}{mitm}{head_io}{head_oob}{head_mitm} {}", char::from(letter));
        }
    }
}
