//! Document 01, "Stand-ins": power, square root, ln, maximum; and the finite test.

/// The bits that stand for every NaN wherever bits are printed or compared.
pub const NAN_BITS: u64 = 0x7FF8_0000_0000_0000;

const SIGN: u64 = 1 << 63;
const INFINITY_BITS: u64 = 0x7FF0_0000_0000_0000;

/// 2⁻⁴⁸: a pivot must be greater than this times its starting value.
pub const PIVOT_FACTOR: f64 = 1.0 / (1u64 << 48) as f64;

/// 2⁻⁵²: added to the diagonal for the inverse; the least mean loss of a score; the pruning threshold.
pub const EPSILON: f64 = 1.0 / (1u64 << 52) as f64;

/// Neither a NaN nor an infinity: the eleven exponent bits are not all ones.
pub fn is_finite(v: f64) -> bool {
    (v.to_bits() >> 52) & 0x7FF != 0x7FF
}

/// The bits of `v`, with one pattern for all NaNs: NaNs count as one value.
pub fn bits(v: f64) -> u64 {
    one_nan(v.to_bits())
}

/// On whole numbers and never inlined: an optimising compiler holds NaN bits to be undetermined,
/// and takes `if v.is_nan() { NAN_BITS } else { v.to_bits() }` for `v.to_bits()`.
#[inline(never)]
fn one_nan(bits: u64) -> u64 {
    if bits & !SIGN > INFINITY_BITS {
        NAN_BITS
    } else {
        bits
    }
}

/// The number of these bits, with one number for all NaNs.
pub fn one_value(pattern: u64) -> f64 {
    f64::from_bits(one_nan(pattern))
}

/// The sign bit cleared.
pub fn abs(v: f64) -> f64 {
    f64::from_bits(v.to_bits() & !SIGN)
}

/// The larger, or the other one beside a NaN. Of two equal numbers the first.
pub fn maximum(a: f64, b: f64) -> f64 {
    if a.is_nan() {
        b
    } else if b.is_nan() || a >= b {
        a
    } else {
        b
    }
}

/// r = 1, b = x, e = j; if e is odd, r = r × b; halve e downward; at 0 stop, else b = b × b and repeat.
pub fn power(x: f64, j: usize) -> f64 {
    let mut r = 1.0;
    let mut b = x;
    let mut e = j;
    loop {
        if e % 2 == 1 {
            r *= b;
        }
        e /= 2;
        if e == 0 {
            return r;
        }
        b *= b;
    }
}

/// NaN for NaN or below zero; zeros and +infinity stand; else the nearest double.
/// The hardware's square root is all of this by IEEE 754.
pub fn square_root(v: f64) -> f64 {
    v.sqrt()
}

/// L1 to L7, by their bits.
const L: [u64; 7] = [
    0x3FE5_5555_5555_5593,
    0x3FD9_9999_9997_FA04,
    0x3FD2_4924_9422_9359,
    0x3FCC_71C5_1D8E_78AF,
    0x3FC7_4664_96CB_03DE,
    0x3FC3_9A09_D078_C69F,
    0x3FC2_F112_DF3E_5244,
];

/// The high and the low part of ln 2, by their bits.
const LN2: [u64; 2] = [0x3FE6_2E42_FEE0_0000, 0x3DEA_39EF_3579_3C76];

/// The high 32 bits from which m is halved.
const SPLIT_HIGH_WORD: u64 = 0x3FF6_A09E;

/// ln by fdlibm's method. Outside document 01's words (positive finite, +infinity):
/// zeros give −infinity, below zero and NaN give NaN.
pub fn ln(v: f64) -> f64 {
    if v.is_nan() || v < 0.0 {
        return f64::NAN;
    }
    if v == 0.0 {
        return f64::NEG_INFINITY;
    }
    if v == f64::INFINITY {
        return v;
    }
    if v == 1.0 {
        return 0.0;
    }
    let [l1, l2, l3, l4, l5, l6, l7] = L.map(f64::from_bits);
    let [ln2_hi, ln2_lo] = LN2.map(f64::from_bits);
    let (m, k) = split(v);
    let f = m - 1.0;
    let h = (0.5 * f) * f;
    let s = f / (2.0 + f);
    let z = s * s;
    let w = z * z;
    let t1 = w * (l2 + w * (l4 + w * l6));
    let t2 = z * (l1 + w * (l3 + w * (l5 + w * l7)));
    let r = t2 + t1;
    ((s * (h + r) + k * ln2_lo) - h) + f + k * ln2_hi
}

/// v = 2ᵏ × m for a positive finite v, the high 32 bits of m from 3FE6A09E up to below 3FF6A09E.
pub fn split(v: f64) -> (f64, f64) {
    let subnormal = v.to_bits() >> 52 == 0;
    let (v, shift) = if subnormal { (v * TWO_54, 54) } else { (v, 0) };
    let exponent = (v.to_bits() >> 52) as i64 - 1023;
    let fraction = v.to_bits() & ((1 << 52) - 1);
    let m = f64::from_bits(1023 << 52 | fraction);
    let k = exponent - shift;
    if m.to_bits() >> 32 >= SPLIT_HIGH_WORD {
        (m / 2.0, (k + 1) as f64)
    } else {
        (m, k as f64)
    }
}

/// 2⁵⁴, by which a subnormal is scaled.
const TWO_54: f64 = (1u64 << 54) as f64;

#[cfg(test)]
mod tests {
    use super::*;

    #[test]
    fn constants() {
        assert_eq!(PIVOT_FACTOR, 2f64.powi(-48));
        assert_eq!(EPSILON, f64::EPSILON);
        assert_eq!(TWO_54, 2f64.powi(54));
    }

    #[test]
    fn one_pattern_for_nans() {
        for v in [-1.0, f64::NEG_INFINITY, -f64::NAN, f64::from_bits(0x7FF0_0000_0000_0001)] {
            assert_eq!(bits(square_root(v)), NAN_BITS);
        }
        assert_eq!(bits(f64::NEG_INFINITY), f64::NEG_INFINITY.to_bits());
        assert_eq!(bits(square_root(-0.0)), 1 << 63);
    }

    #[test]
    fn power_steps() {
        assert_eq!(power(f64::NAN, 0), 1.0);
        assert_eq!(power(-0.0, 1).to_bits(), (1.0 * -0.0f64).to_bits());
        assert_eq!(power(3.0, 5), 243.0);
        // x⁷ = ((x × x²) × x⁴), in this order.
        let x = 1.1f64;
        assert_eq!(power(x, 7), (x * (x * x)) * ((x * x) * (x * x)));
    }

    #[test]
    fn maximum_beside_nan() {
        assert_eq!(maximum(f64::NAN, 2.0), 2.0);
        assert_eq!(maximum(2.0, f64::NAN), 2.0);
        assert_eq!(maximum(1.0, 2.0), 2.0);
        assert!(maximum(f64::NAN, f64::NAN).is_nan());
    }

    #[test]
    fn split_ranges() {
        let mut v = f64::from_bits(1);
        while v < f64::INFINITY {
            let (m, k) = split(v);
            let high = m.to_bits() >> 32;
            assert!((0x3FE6_A09E..0x3FF6_A09E).contains(&high));
            let back = if k > 0.0 {
                m * 2.0 * 2f64.powi(k as i32 - 1)
            } else {
                m * 2f64.powi(k as i32 / 2) * 2f64.powi(k as i32 - k as i32 / 2)
            };
            assert_eq!(back, v);
            v *= 1.37;
            if v < 1e-300 {
                v = f64::from_bits(v.to_bits() + 1);
            }
        }
    }

    #[test]
    fn ln_edges() {
        assert_eq!(ln(1.0).to_bits(), 0);
        assert_eq!(ln(0.0), f64::NEG_INFINITY);
        assert_eq!(ln(-0.0), f64::NEG_INFINITY);
        assert!(ln(-1.0).is_nan() && ln(f64::NAN).is_nan() && ln(f64::NEG_INFINITY).is_nan());
        assert_eq!(ln(f64::INFINITY), f64::INFINITY);
    }
}
