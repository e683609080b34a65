//! Stands for the crate `aes`: AES-128 of FIPS 197, with the names by which crypto.rs calls it.
//! The S-box is computed from the standard's rule when this is compiled, not copied.

/// Multiplication by x in GF(2^8) (FIPS 197, 4.2.1).
const fn xtime(a: u8) -> u8 {
    (a << 1) ^ (0x1b * (a >> 7))
}

const fn multiply(a: u8, b: u8) -> u8 {
    let (mut product, mut a, mut b) = (0u8, a, b);
    while b != 0 {
        if b & 1 == 1 {
            product ^= a;
        }
        a = xtime(a);
        b >>= 1;
    }
    product
}

/// The inverse is the 254th power; that of 0 is 0.
const fn inverse(a: u8) -> u8 {
    let (mut power, mut i) = (a, 1);
    while i < 254 {
        power = multiply(power, a);
        i += 1;
    }
    power
}

/// Inverse, then the affine map (FIPS 197, 5.1.1).
const fn s_box() -> [u8; 256] {
    let mut table = [0u8; 256];
    let mut i = 0;
    while i < 256 {
        let b = inverse(i as u8);
        table[i] = b ^ b.rotate_left(1) ^ b.rotate_left(2) ^ b.rotate_left(3) ^ b.rotate_left(4) ^ 0x63;
        i += 1;
    }
    table
}

static S_BOX: [u8; 256] = s_box();

/// AES with a key of 128 bits: its eleven round keys.
#[derive(Clone, Debug)]
pub struct Aes128([[u8; 16]; 11]);

impl Aes128 {
    /// Key expansion (FIPS 197, 5.2), a round key at a time.
    fn expand(key: [u8; 16]) -> Self {
        let mut keys = [key; 11];
        let mut constant = 1u8;
        for round in 1..11 {
            let last = keys[round - 1];
            let mut word = [
                S_BOX[last[13] as usize] ^ constant,
                S_BOX[last[14] as usize],
                S_BOX[last[15] as usize],
                S_BOX[last[12] as usize],
            ];
            for i in 0..16 {
                word[i % 4] ^= last[i];
                keys[round][i] = word[i % 4];
            }
            constant = xtime(constant);
        }
        Self(keys)
    }
}

fn add_round_key(state: &mut [u8; 16], key: &[u8; 16]) {
    for i in 0..16 {
        state[i] ^= key[i];
    }
}

/// SubBytes and ShiftRows at once: row `i % 4` moves left by as many columns.
fn sub_and_shift(state: &[u8; 16]) -> [u8; 16] {
    core::array::from_fn(|i| S_BOX[state[(i + 4 * (i % 4)) % 16] as usize])
}

fn mix_columns(state: &mut [u8; 16]) {
    for column in state.chunks_exact_mut(4) {
        let [a, b, c, d] = [column[0], column[1], column[2], column[3]];
        let all = a ^ b ^ c ^ d;
        column[0] = a ^ all ^ xtime(a ^ b);
        column[1] = b ^ all ^ xtime(b ^ c);
        column[2] = c ^ all ^ xtime(c ^ d);
        column[3] = d ^ all ^ xtime(d ^ a);
    }
}

/// The names under `aes::cipher`.
pub mod cipher {
    use super::{add_round_key, mix_columns, sub_and_shift, Aes128};

    #[derive(Debug)]
    pub struct InvalidLength;

    pub trait KeySizeUser {
        type Key;
    }

    impl KeySizeUser for Aes128 {
        type Key = [u8; 16];
    }

    pub type Key<A> = <A as KeySizeUser>::Key;

    pub trait KeyInit: Sized {
        fn new_from_slice(key: &[u8]) -> Result<Self, InvalidLength>;
    }

    impl KeyInit for Aes128 {
        fn new_from_slice(key: &[u8]) -> Result<Self, InvalidLength> {
            Ok(Aes128::expand(key.try_into().map_err(|_| InvalidLength)?))
        }
    }

    pub trait BlockEncrypt {
        fn encrypt_block(&self, block: &mut [u8; 16]);
    }

    impl BlockEncrypt for Aes128 {
        fn encrypt_block(&self, block: &mut [u8; 16]) {
            add_round_key(block, &self.0[0]);
            for round in 1..10 {
                *block = sub_and_shift(block);
                mix_columns(block);
                add_round_key(block, &self.0[round]);
            }
            *block = sub_and_shift(block);
            add_round_key(block, &self.0[10]);
        }
    }
}

#[cfg(test)]
mod tests {
    use super::cipher::{BlockEncrypt, KeyInit};
    use super::{Aes128, S_BOX};

    fn encrypt(key: u128, block: u128) -> u128 {
        let mut octets = block.to_be_bytes();
        Aes128::new_from_slice(&key.to_be_bytes()).unwrap().encrypt_block(&mut octets);
        u128::from_be_bytes(octets)
    }

    /// FIPS 197, Appendix B.
    #[test]
    fn fips_197_appendix_b() {
        let got = encrypt(0x2b7e1516_28aed2a6_abf71588_09cf4f3c, 0x3243f6a8_885a308d_313198a2_e0370734);
        assert_eq!(got, 0x3925841d_02dc09fb_dc118597_196a0b32);
    }

    /// FIPS 197, Appendix C.1.
    #[test]
    fn fips_197_appendix_c1() {
        let got = encrypt(0x00010203_04050607_08090a0b_0c0d0e0f, 0x00112233_44556677_8899aabb_ccddeeff);
        assert_eq!(got, 0x69c4e0d8_6a7b0430_d8cdb780_70b4c55a);
    }

    /// Document 01's table, and FIPS 197, 5.1.1.
    #[test]
    fn s_box_entries() {
        assert_eq!((S_BOX[0x00], S_BOX[0x53]), (0x63, 0xed));
    }
}
