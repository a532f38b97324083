//! SHA-256 (FIPS 180-4), so that a page can name the record and the values that it was made from.

const BLOCK: usize = 64;

/// The first 32 bits of the fractions of the square roots of the first eight primes.
const START: [u32; 8] = [
    0x6a09e667, 0xbb67ae85, 0x3c6ef372, 0xa54ff53a, 0x510e527f, 0x9b05688c, 0x1f83d9ab, 0x5be0cd19,
];

/// The first 32 bits of the fractions of the cube roots of the first 64 primes.
const ROUNDS: [u32; 64] = [
    0x428a2f98, 0x71374491, 0xb5c0fbcf, 0xe9b5dba5, 0x3956c25b, 0x59f111f1, 0x923f82a4, 0xab1c5ed5,
    0xd807aa98, 0x12835b01, 0x243185be, 0x550c7dc3, 0x72be5d74, 0x80deb1fe, 0x9bdc06a7, 0xc19bf174,
    0xe49b69c1, 0xefbe4786, 0x0fc19dc6, 0x240ca1cc, 0x2de92c6f, 0x4a7484aa, 0x5cb0a9dc, 0x76f988da,
    0x983e5152, 0xa831c66d, 0xb00327c8, 0xbf597fc7, 0xc6e00bf3, 0xd5a79147, 0x06ca6351, 0x14292967,
    0x27b70a85, 0x2e1b2138, 0x4d2c6dfc, 0x53380d13, 0x650a7354, 0x766a0abb, 0x81c2c92e, 0x92722c85,
    0xa2bfe8a1, 0xa81a664b, 0xc24b8b70, 0xc76c51a3, 0xd192e819, 0xd6990624, 0xf40e3585, 0x106aa070,
    0x19a4c116, 0x1e376c08, 0x2748774c, 0x34b0bcb5, 0x391c0cb3, 0x4ed8aa4a, 0x5b9cca4f, 0x682e6ff3,
    0x748f82ee, 0x78a5636f, 0x84c87814, 0x8cc70208, 0x90befffa, 0xa4506ceb, 0xbef9a3f7, 0xc67178f2,
];

/// The hash of some bytes in 64 small hexadecimal digits, as `sha256sum` writes it.
pub fn sha256(bytes: &[u8]) -> String {
    let whole = padded(bytes);
    let state = whole.chunks_exact(BLOCK).fold(START, stirred);
    state.map(|word| format!("{word:08x}")).concat()
}

/// The bytes, a one bit, zeros, and the count of bits at the end of a block.
fn padded(bytes: &[u8]) -> Vec<u8> {
    let mut whole = bytes.to_vec();
    whole.push(0x80);
    whole.resize((whole.len() + 8).next_multiple_of(BLOCK) - 8, 0);
    whole.extend_from_slice(&(bytes.len() as u64 * 8).to_be_bytes());
    whole
}

/// The state after one more block.
fn stirred(state: [u32; 8], block: &[u8]) -> [u32; 8] {
    let [mut a, mut b, mut c, mut d, mut e, mut f, mut g, mut h] = state;
    for (round, word) in ROUNDS.iter().zip(schedule(block)) {
        let sum_e = e.rotate_right(6) ^ e.rotate_right(11) ^ e.rotate_right(25);
        let chosen = (e & f) ^ (!e & g);
        let one =
            h.wrapping_add(sum_e).wrapping_add(chosen).wrapping_add(*round).wrapping_add(word);
        let sum_a = a.rotate_right(2) ^ a.rotate_right(13) ^ a.rotate_right(22);
        let most = (a & b) ^ (a & c) ^ (b & c);
        (h, g, f, e) = (g, f, e, d.wrapping_add(one));
        (d, c, b, a) = (c, b, a, one.wrapping_add(sum_a.wrapping_add(most)));
    }
    let worked = [a, b, c, d, e, f, g, h];
    std::array::from_fn(|index| state[index].wrapping_add(worked[index]))
}

/// The words of a block, and those that follow from them.
fn schedule(block: &[u8]) -> [u32; 64] {
    let mut words = [0; 64];
    for index in 0..64 {
        words[index] = match block.get(4 * index..4 * index + 4) {
            Some(word) => u32::from_be_bytes(word.try_into().expect("four bytes")),
            None => {
                let (early, late) = (words[index - 15], words[index - 2]);
                let one = early.rotate_right(7) ^ early.rotate_right(18) ^ (early >> 3);
                let two = late.rotate_right(17) ^ late.rotate_right(19) ^ (late >> 10);
                let sum = words[index - 16].wrapping_add(one).wrapping_add(words[index - 7]);
                sum.wrapping_add(two)
            }
        };
    }
    words
}

#[cfg(test)]
mod tests {
    use super::*;

    #[test]
    fn the_standard_s_own_examples() {
        let rows: [(&[u8], &str); 4] = [
            (b"", "e3b0c44298fc1c149afbf4c8996fb92427ae41e4649b934ca495991b7852b855"),
            (b"abc", "ba7816bf8f01cfea414140de5dae2223b00361a396177a9cb410ff61f20015ad"),
            (
                b"abcdbcdecdefdefgefghfghighijhijkijkljklmklmnlmnomnopnopq",
                "248d6a61d20638b8e5c026930c3e6039a33ce45964ff2167f6ecedd419db06c1",
            ),
            (
                &[b'a'; 1_000_000],
                "cdc76e5c9914fb9281a1c7e284d73e67f1809a48a497200e046d39ccc7112cd0",
            ),
        ];
        for (bytes, hash) in rows {
            assert_eq!(sha256(bytes), hash, "{} bytes", bytes.len());
        }
    }

    #[test]
    fn every_length_about_a_block_has_its_own_hash() {
        let mut hashes: Vec<String> = (0..200).map(|length| sha256(&vec![0; length])).collect();
        hashes.sort();
        hashes.dedup();
        assert_eq!(hashes.len(), 200);
    }
}
