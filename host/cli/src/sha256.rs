//! SHA-256 by FIPS 180-4, for the hashes that are kept beside slips. It is tested with that paper's vectors and not proved.
use std::io::{self, Write};

/// The bytes of a block.
const BLOCK: usize = 64;

/// Where the length stands in the last block.
const LENGTH_AT: usize = 56;

/// The first hash value (5.3.3).
const FIRST: [u32; 8] =
    [0x6a09_e667, 0xbb67_ae85, 0x3c6e_f372, 0xa54f_f53a, 0x510e_527f, 0x9b05_688c, 0x1f83_d9ab, 0x5be0_cd19];

/// The constants of the rounds (4.2.2).
#[rustfmt::skip]
const ROUNDS: [u32; 64] = [
    0x428a_2f98, 0x7137_4491, 0xb5c0_fbcf, 0xe9b5_dba5, 0x3956_c25b, 0x59f1_11f1, 0x923f_82a4, 0xab1c_5ed5,
    0xd807_aa98, 0x1283_5b01, 0x2431_85be, 0x550c_7dc3, 0x72be_5d74, 0x80de_b1fe, 0x9bdc_06a7, 0xc19b_f174,
    0xe49b_69c1, 0xefbe_4786, 0x0fc1_9dc6, 0x240c_a1cc, 0x2de9_2c6f, 0x4a74_84aa, 0x5cb0_a9dc, 0x76f9_88da,
    0x983e_5152, 0xa831_c66d, 0xb003_27c8, 0xbf59_7fc7, 0xc6e0_0bf3, 0xd5a7_9147, 0x06ca_6351, 0x1429_2967,
    0x27b7_0a85, 0x2e1b_2138, 0x4d2c_6dfc, 0x5338_0d13, 0x650a_7354, 0x766a_0abb, 0x81c2_c92e, 0x9272_2c85,
    0xa2bf_e8a1, 0xa81a_664b, 0xc24b_8b70, 0xc76c_51a3, 0xd192_e819, 0xd699_0624, 0xf40e_3585, 0x106a_a070,
    0x19a4_c116, 0x1e37_6c08, 0x2748_774c, 0x34b0_bcb5, 0x391c_0cb3, 0x4ed8_aa4a, 0x5b9c_ca4f, 0x682e_6ff3,
    0x748f_82ee, 0x78a5_636f, 0x84c8_7814, 0x8cc7_0208, 0x90be_fffa, 0xa450_6ceb, 0xbef9_a3f7, 0xc671_78f2,
];

/// The hash of bytes that are written to it.
pub struct Sha256 {
    hash: [u32; 8],
    block: [u8; BLOCK],
    /// How many bytes were written.
    length: u64,
}

impl Sha256 {
    pub fn new() -> Sha256 {
        Sha256 { hash: FIRST, block: [0; BLOCK], length: 0 }
    }

    /// The hash in hex, as sha256sum prints it.
    pub fn finish(mut self) -> String {
        let bits = self.length.wrapping_mul(8);
        self.add(&[0x80]);
        while self.filled() != LENGTH_AT {
            self.add(&[0]);
        }
        self.add(&bits.to_be_bytes());
        self.hash.iter().map(|word| format!("{word:08x}")).collect()
    }

    /// How many bytes of the block are there.
    fn filled(&self) -> usize {
        (self.length % BLOCK as u64) as usize
    }

    fn add(&mut self, bytes: &[u8]) {
        let mut rest = bytes;
        while !rest.is_empty() {
            let filled = self.filled();
            let (some, after) = rest.split_at(rest.len().min(BLOCK - filled));
            self.block[filled..filled + some.len()].copy_from_slice(some);
            self.length = self.length.wrapping_add(some.len() as u64);
            if self.filled() == 0 {
                self.take_block();
            }
            rest = after;
        }
    }

    /// One block (6.2.2).
    fn take_block(&mut self) {
        let words = schedule(&self.block);
        let [mut a, mut b, mut c, mut d, mut e, mut f, mut g, mut h] = self.hash;
        for (constant, word) in ROUNDS.iter().zip(words) {
            let choice = (e & f) ^ (!e & g);
            let majority = (a & b) ^ (a & c) ^ (b & c);
            let sum_e = e.rotate_right(6) ^ e.rotate_right(11) ^ e.rotate_right(25);
            let sum_a = a.rotate_right(2) ^ a.rotate_right(13) ^ a.rotate_right(22);
            let one = h.wrapping_add(sum_e).wrapping_add(choice).wrapping_add(*constant).wrapping_add(word);
            let two = sum_a.wrapping_add(majority);
            (h, g, f, e) = (g, f, e, d.wrapping_add(one));
            (d, c, b, a) = (c, b, a, one.wrapping_add(two));
        }
        for (word, new) in self.hash.iter_mut().zip([a, b, c, d, e, f, g, h]) {
            *word = word.wrapping_add(new);
        }
    }
}

/// The words of a block's rounds.
fn schedule(block: &[u8; BLOCK]) -> [u32; 64] {
    let mut words = [0; 64];
    for (word, bytes) in words.iter_mut().zip(block.chunks_exact(4)) {
        *word = u32::from_be_bytes([bytes[0], bytes[1], bytes[2], bytes[3]]);
    }
    for t in 16..64 {
        let (early, late) = (words[t - 15], words[t - 2]);
        let low = early.rotate_right(7) ^ early.rotate_right(18) ^ (early >> 3);
        let high = late.rotate_right(17) ^ late.rotate_right(19) ^ (late >> 10);
        words[t] = high.wrapping_add(words[t - 7]).wrapping_add(low).wrapping_add(words[t - 16]);
    }
    words
}

impl Write for Sha256 {
    fn write(&mut self, bytes: &[u8]) -> io::Result<usize> {
        self.add(bytes);
        Ok(bytes.len())
    }

    fn flush(&mut self) -> io::Result<()> {
        Ok(())
    }
}

/// The line that sha256sum prints for bytes from standard input, and takes again with -c.
pub fn line(hash: &str) -> String {
    format!("{hash}  -\n")
}

/// The hash of the first line of sha256sum's text.
pub fn of_line(text: &[u8]) -> Option<String> {
    let ends = text.get(64).is_none_or(u8::is_ascii_whitespace);
    let hash = std::str::from_utf8(text.get(..64)?).ok()?.to_ascii_lowercase();
    (ends && hash.bytes().all(|digit| digit.is_ascii_hexdigit())).then_some(hash)
}

#[cfg(test)]
mod tests {
    use super::*;

    fn hash(bytes: &[u8]) -> String {
        let mut hash = Sha256::new();
        hash.write_all(bytes).unwrap();
        hash.finish()
    }

    /// The vectors that NIST publishes for FIPS 180-4.
    #[test]
    fn vectors() {
        let long = "abcdefghbcdefghicdefghijdefghijkefghijklfghijklmghijklmnhijklmnoijklmnopjklmnopqklmnopqrlmnopqrsmnopqrstnopqrstu";
        for (text, expected) in [
            ("", "e3b0c44298fc1c149afbf4c8996fb92427ae41e4649b934ca495991b7852b855"),
            ("abc", "ba7816bf8f01cfea414140de5dae2223b00361a396177a9cb410ff61f20015ad"),
            (
                "abcdbcdecdefdefgefghfghighijhijkijkljklmklmnlmnomnopnopq",
                "248d6a61d20638b8e5c026930c3e6039a33ce45964ff2167f6ecedd419db06c1",
            ),
            (long, "cf5b16a778af8380036ce59e7b0492370b249b11e8f07a51afac45037afee9d1"),
            (&"a".repeat(1_000_000), "cdc76e5c9914fb9281a1c7e284d73e67f1809a48a497200e046d39ccc7112cd0"),
        ] {
            assert_eq!(hash(text.as_bytes()), expected);
        }
    }

    /// However the bytes come, in one piece or in many, around the ends of blocks.
    #[test]
    fn pieces() {
        for length in [1, 55, 56, 57, 63, 64, 65, 119, 120, 128, 1000] {
            let bytes: Vec<u8> = (0..length).map(|i| (i * 7 % 251) as u8).collect();
            let mut pieces = Sha256::new();
            bytes.chunks(13).for_each(|piece| pieces.write_all(piece).unwrap());
            assert_eq!(pieces.finish(), hash(&bytes), "{length}");
        }
    }

    #[test]
    fn lines() {
        let digits = hash(b"abc");
        assert_eq!(of_line(line(&digits).as_bytes()), Some(digits.clone()));
        for text in [digits.clone(), format!("{}  film\n", digits.to_uppercase()), format!("{digits} *film\nmore")] {
            assert_eq!(of_line(text.as_bytes()), Some(digits.clone()), "{text}");
        }
        for text in [&digits[1..], &format!("{digits}0"), &digits.replace('b', "g"), ""] {
            assert_eq!(of_line(text.as_bytes()), None, "{text}");
        }
    }
}
