//! Reads its input and writes it again: what size_port and size_rust have beside the machines.

use std::io::{Read, Write};

fn main() {
    let mut octets = [0; 1024];
    let count = std::io::stdin().read(&mut octets).unwrap_or(0);
    let _ = std::io::stdout().write_all(&octets[..count]);
}
