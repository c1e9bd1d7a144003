//! SHA-256 (FIPS 180-4), for the printed digests of the example frame.

const START: [u32; 8] = [
    0x6a09e667, 0xbb67ae85, 0x3c6ef372, 0xa54ff53a, 0x510e527f, 0x9b05688c, 0x1f83d9ab, 0x5be0cd19,
];

/// The first 32 bits of the fractional parts of the cube roots of the first 64 primes.
fn constants() -> Vec<u32> {
    let is_prime = |n: &u128| (2..*n).all(|d| !n.is_multiple_of(d));
    (2u128..)
        .filter(is_prime)
        .take(64)
        .map(|prime| cube_root(prime << 96) as u32)
        .collect()
}

/// The greatest number whose cube does not exceed `n`.
fn cube_root(n: u128) -> u128 {
    let (mut low, mut high) = (0u128, 1 << 36);
    while high - low > 1 {
        let middle = (low + high) / 2;
        if middle * middle * middle <= n {
            low = middle;
        } else {
            high = middle;
        }
    }
    low
}

fn padded(message: &[u8]) -> Vec<u8> {
    let mut padded = message.to_vec();
    padded.push(0x80);
    while padded.len() % 64 != 56 {
        padded.push(0);
    }
    padded.extend((message.len() as u64 * 8).to_be_bytes());
    padded
}

fn schedule(block: &[u8]) -> Vec<u32> {
    let word = |four: &[u8]| u32::from_be_bytes([four[0], four[1], four[2], four[3]]);
    let mut w: Vec<u32> = block.chunks(4).map(word).collect();
    for t in 16..64 {
        let (a, b) = (w[t - 15], w[t - 2]);
        let s0 = a.rotate_right(7) ^ a.rotate_right(18) ^ (a >> 3);
        let s1 = b.rotate_right(17) ^ b.rotate_right(19) ^ (b >> 10);
        w.push(
            w[t - 16]
                .wrapping_add(s0)
                .wrapping_add(w[t - 7])
                .wrapping_add(s1),
        );
    }
    w
}

fn round(state: [u32; 8], constant: u32, word: u32) -> [u32; 8] {
    let [a, b, c, d, e, f, g, h] = state;
    let s1 = e.rotate_right(6) ^ e.rotate_right(11) ^ e.rotate_right(25);
    let choice = (e & f) ^ (!e & g);
    let t1 = [s1, choice, constant, word]
        .iter()
        .fold(h, |sum, &term| sum.wrapping_add(term));
    let s0 = a.rotate_right(2) ^ a.rotate_right(13) ^ a.rotate_right(22);
    let majority = (a & b) ^ (a & c) ^ (b & c);
    let t2 = s0.wrapping_add(majority);
    [t1.wrapping_add(t2), a, b, c, d.wrapping_add(t1), e, f, g]
}

pub fn hexadecimal_digest(message: &[u8]) -> String {
    let constants = constants();
    let mut sum = START;
    for block in padded(message).chunks(64) {
        let words = schedule(block);
        let state = constants
            .iter()
            .zip(words)
            .fold(sum, |s, (k, w)| round(s, *k, w));
        for (word, add) in sum.iter_mut().zip(state) {
            *word = word.wrapping_add(add);
        }
    }
    sum.iter().map(|word| format!("{word:08x}")).collect()
}

#[test]
fn the_digest_of_abc_is_the_published_one() {
    let published = "ba7816bf8f01cfea414140de5dae2223b00361a396177a9cb410ff61f20015ad";
    assert_eq!(hexadecimal_digest(b"abc"), published);
}
