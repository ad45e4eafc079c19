//! Document 01's stand-ins for f64: power, ln, maximum.

/// r = 1, b = x, e = n; an odd e multiplies r by b; e is halved; b is squared unless e is 0.
pub fn power(x: f64, n: u32) -> f64 {
    let (mut r, mut b, mut e) = (1.0, x, n);
    while e > 0 {
        if e & 1 == 1 {
            r *= b;
        }
        e >>= 1;
        if e > 0 {
            b *= b;
        }
    }
    r
}

/// The larger, or the other one beside a NaN.
pub fn maximum(a: f64, b: f64) -> f64 {
    match a.partial_cmp(&b) {
        Some(std::cmp::Ordering::Less) => b,
        Some(_) => a,
        None if a.is_nan() => b,
        None => a,
    }
}

/// The smaller, or the other one beside a NaN; document 01 has no such stand-in, and the range of
/// finite x's, where polyfit uses it, is the same whichever of two equal zeros is taken.
pub fn minimum(a: f64, b: f64) -> f64 {
    -maximum(-a, -b)
}

/// ln as fdlibm's e_log.c has it, with the sum in document 01's one order.
///
/// The high word is shifted so that its exponent field counts k: then 3FE6A09E and above, below
/// 3FF6A09E, is the high word of m.
pub fn ln(v: f64) -> f64 {
    const LOWEST_HIGH_WORD: u32 = 0x3FE6_A09E;
    let bits = v.to_bits();
    if bits << 1 == 0 {
        return f64::NEG_INFINITY;
    }
    if bits >> 63 == 1 {
        return f64::NAN;
    }
    if bits >= 0x7FF0_0000_0000_0000 {
        return v + v;
    }
    if bits == 0x3FF0_0000_0000_0000 {
        return 0.0;
    }
    let (bits, mut k) = match bits >> 52 {
        0 => ((v * 18_014_398_509_481_984.0).to_bits(), -54),
        _ => (bits, 0),
    };
    let shifted = (bits >> 32) as u32 + (0x3FF0_0000 - LOWEST_HIGH_WORD);
    k += (shifted >> 20) as i32 - 0x3FF;
    let high = (shifted & 0x000F_FFFF) + LOWEST_HIGH_WORD;
    let m = f64::from_bits((high as u64) << 32 | bits & 0xFFFF_FFFF);
    ln_of_parts(m - 1.0, f64::from(k))
}

/// ln of 2ᵏ × (1 + f).
fn ln_of_parts(f: f64, k: f64) -> f64 {
    let l = |bits: u64| f64::from_bits(bits);
    let hfsq = 0.5 * f * f;
    let s = f / (2.0 + f);
    let z = s * s;
    let w = z * z;
    let t1 = w * (l(0x3FD999999997FA04) + w * (l(0x3FCC71C51D8E78AF) + w * l(0x3FC39A09D078C69F)));
    let t2 = z
        * (l(0x3FE5555555555593)
            + w * (l(0x3FD2492494229359)
                + w * (l(0x3FC7466496CB03DE) + w * l(0x3FC2F112DF3E5244))));
    let r = t2 + t1;
    s * (hfsq + r) + k * l(0x3DEA39EF35793C76) - hfsq + f + k * l(0x3FE62E42FEE00000)
}
