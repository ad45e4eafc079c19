//! SHA-256 (FIPS 180-4).

/// The first 32 bits of the fractional part of a root of a prime, found by whole number roots.
fn fraction_of_root(prime: u128, degree: u32) -> u32 {
    // The degree-th root of prime × 2^(32 × degree) is the root of prime times 2^32.
    let scaled = prime << (32 * degree);
    let (mut low, mut high) = (0u128, 1u128 << 37);
    while high - low > 1 {
        let middle = (low + high) / 2;
        if middle.pow(degree) <= scaled {
            low = middle;
        } else {
            high = middle;
        }
    }
    low as u32
}

fn primes() -> impl Iterator<Item = u128> {
    (2u128..).filter(|n| (2..*n).all(|d| n % d != 0))
}

fn compress(state: &mut [u32; 8], block: &[u8], constants: &[u32]) {
    let mut w = [0u32; 64];
    for (t, word) in block.chunks(4).enumerate() {
        w[t] = u32::from_be_bytes(word.try_into().unwrap());
    }
    for t in 16..64 {
        let s0 = w[t - 15].rotate_right(7) ^ w[t - 15].rotate_right(18) ^ (w[t - 15] >> 3);
        let s1 = w[t - 2].rotate_right(17) ^ w[t - 2].rotate_right(19) ^ (w[t - 2] >> 10);
        w[t] = w[t - 16].wrapping_add(s0).wrapping_add(w[t - 7]).wrapping_add(s1);
    }
    let [mut a, mut b, mut c, mut d, mut e, mut f, mut g, mut h] = *state;
    for t in 0..64 {
        let s1 = e.rotate_right(6) ^ e.rotate_right(11) ^ e.rotate_right(25);
        let choice = (e & f) ^ (!e & g);
        let sum = h.wrapping_add(s1).wrapping_add(choice);
        let t1 = sum.wrapping_add(constants[t]).wrapping_add(w[t]);
        let s0 = a.rotate_right(2) ^ a.rotate_right(13) ^ a.rotate_right(22);
        let t2 = s0.wrapping_add((a & b) ^ (a & c) ^ (b & c));
        (h, g, f, e) = (g, f, e, d.wrapping_add(t1));
        (d, c, b, a) = (c, b, a, t1.wrapping_add(t2));
    }
    for (place, value) in state.iter_mut().zip([a, b, c, d, e, f, g, h]) {
        *place = place.wrapping_add(value);
    }
}

/// The hash of the bytes, in hexadecimal.
pub fn hex(bytes: &[u8]) -> String {
    let constants: Vec<u32> = primes().take(64).map(|p| fraction_of_root(p, 3)).collect();
    let first: Vec<u32> = primes().take(8).map(|p| fraction_of_root(p, 2)).collect();
    let mut state: [u32; 8] = first.try_into().unwrap();
    let mut padded = bytes.to_vec();
    padded.push(0x80);
    while padded.len() % 64 != 56 {
        padded.push(0);
    }
    padded.extend((bytes.len() as u64 * 8).to_be_bytes());
    for block in padded.chunks(64) {
        compress(&mut state, block, &constants);
    }
    state.iter().map(|word| format!("{word:08x}")).collect()
}
