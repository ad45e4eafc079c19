//! Prints test vectors for the square root and ln, one a line of 53 bytes:
//!
//! `r X Y 0` the bits of x, of its square root by the hardware, and zeros;
//! `l X Y Z` the bits of x, of ln x by document 01, and of the library's `f64::ln`.
//!
//! Fails where the two lns differ by more than one last bit.

use judge::numbers::{bits, ln, square_root, NAN_BITS};

/// Marsaglia's xorshift64, with a fixed seed, so that the vectors are the same on every run.
struct Xorshift(u64);

impl Xorshift {
    fn next(&mut self) -> u64 {
        self.0 ^= self.0 << 13;
        self.0 ^= self.0 >> 7;
        self.0 ^= self.0 << 17;
        self.0
    }
}

/// The bits, and those one last bit below and above.
fn around(list: &mut Vec<u64>, bits: u64) {
    list.extend([bits - 1, bits, bits + 1]);
}

/// Zeros, infinities, NaNs, negatives.
fn specials(list: &mut Vec<u64>) {
    let sign = 1u64 << 63;
    for v in [0.0, 1.0, 4.0, f64::MIN_POSITIVE, f64::MAX, f64::INFINITY] {
        list.extend([v.to_bits(), v.to_bits() | sign]);
    }
    list.extend([sign | 1, sign | 0x000F_FFFF_FFFF_FFFF]);
    list.extend([0x7FF8_0000_0000_0000, 0xFFF8_0000_0000_0000]);
    list.extend([0x7FF0_0000_0000_0001, 0x7FFF_FFFF_FFFF_FFFF]);
}

/// Subnormals: the least ones, the greatest, single bits, random ones; the least normals; the largest.
fn range_ends(list: &mut Vec<u64>, random: &mut Xorshift) {
    list.extend(1..=4);
    list.extend((0..52).step_by(3).map(|bit| 1u64 << bit));
    for shift in 12..32 {
        list.push(random.next() >> shift);
    }
    around(list, 0x0010_0000_0000_0000);
    list.extend([0x000F_FFFF_FFFF_FFFE, f64::MAX.to_bits() - 1]);
}

/// Near 1, powers of two and of four, 2⁻⁵², whole numbers, exact squares.
fn plain_values(list: &mut Vec<u64>, random: &mut Xorshift) {
    around(list, 1f64.to_bits());
    for e in [
        -1022, -1021, -1000, -513, -512, -53, -52, -51, -3, -2, -1, 1, 2, 3, 4, 52, 53, 511, 512,
        1022, 1023,
    ] {
        list.push(((1023 + e) as u64) << 52);
    }
    around(list, 2f64.to_bits());
    around(list, 4f64.to_bits());
    around(list, f64::EPSILON.to_bits());
    list.extend((1..=40).map(|n| f64::from(n).to_bits()));
    list.push(4096f64.to_bits());
    for _ in 0..16 {
        let root = (random.next() >> 38) as f64;
        list.push((root * root).to_bits());
    }
    // Squares of 53-bit roots, rounded, and their neighbours: the root is near a tie or a double.
    for _ in 0..6 {
        let root = f64::from_bits(1023 << 52 | random.next() >> 12);
        around(list, (root * root).to_bits());
    }
}

/// Around the two high words where ln splits v, at several exponents.
fn split_points(list: &mut Vec<u64>) {
    for exponent in [1u64, 2, 971, 1021, 1022, 1023, 1024, 1075, 2046] {
        around(list, exponent << 52 | 0x0006_A09E_0000_0000);
    }
    for low_word in [0, 0x667F_3BCC, 0x667F_3BCD, 0xFFFF_FFFF] {
        list.extend([0x3FE6_A09E_0000_0000 | low_word, 0x3FF6_A09E_0000_0000 | low_word]);
    }
}

/// Where a constant of ln with its last bit changed gives another result: L3, then the low part of ln 2.
/// Found by trying some billions of doubles; points taken at random never show it.
fn constant_points(list: &mut Vec<u64>) {
    list.extend([0x3FF4_01EF_9960_0000, 0x3FF4_07B1_0AF0_0000]);
    list.extend([0x4000_020C_6DAD_D3B0, 0x4000_0224_E06F_6C60]);
}

/// One last bit under the square of a number of 27 binary digits: the root rounds up to that number.
fn under_squares(list: &mut Vec<u64>) {
    for root in [0x400_0002u64, 0x5A8_2799, 0x600_0001, 0x7FF_FFFF] {
        let under = root * root - 1;
        // Of 53 binary digits, or of 54 with an even one last.
        let (exponent, digits) = if under < 1 << 53 { (1023, under) } else { (1024, under / 2) };
        list.push(((exponent - 1) << 52) + digits);
    }
}

/// Random patterns: any positive exponent, any bits, and near 1.
fn random_values(list: &mut Vec<u64>, random: &mut Xorshift) {
    for _ in 0..84 {
        list.push(random.next() >> 1);
    }
    for _ in 0..8 {
        list.push(random.next());
    }
    for _ in 0..36 {
        list.push(1022 << 52 | random.next() >> 11);
    }
}

fn inputs() -> Vec<u64> {
    let mut random = Xorshift(0x9E37_79B9_7F4A_7C15);
    let mut list = Vec::new();
    specials(&mut list);
    range_ends(&mut list, &mut random);
    plain_values(&mut list, &mut random);
    split_points(&mut list);
    constant_points(&mut list);
    under_squares(&mut list);
    random_values(&mut list, &mut random);
    let mut seen = std::collections::HashSet::new();
    list.retain(|bits| seen.insert(*bits));
    list
}

/// The line of one vector. A NaN result has one pattern.
fn print_line(kind: char, numbers: [u64; 3]) {
    for result in &numbers[1..] {
        assert!(result & !(1 << 63) <= 0x7FF0_0000_0000_0000 || *result == NAN_BITS);
    }
    let [x, y, z] = numbers;
    println!("{kind} {x:016X} {y:016X} {z:016X}");
}

/// How many last bits lie between two doubles of one sign (0 for two NaNs).
fn distance(a: u64, b: u64) -> u64 {
    if (a >> 63) == (b >> 63) {
        a.abs_diff(b)
    } else {
        u64::MAX
    }
}

fn main() {
    let inputs = inputs();
    for &x in &inputs {
        print_line('r', [x, bits(square_root(f64::from_bits(x))), 0]);
    }
    for &x in &inputs {
        let v = f64::from_bits(x);
        let (ours, library) = (bits(ln(v)), bits(v.ln()));
        assert!(distance(ours, library) <= 1, "ln of {x:016X}: {ours:016X} and {library:016X}");
        print_line('l', [x, ours, library]);
    }
}
