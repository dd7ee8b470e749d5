//! What the operators mean in a circuit: words from 0 to 2^w - 1.

use super::rules::ones;

/// The signed value of a word of width w.
pub fn signed(a: u64, w: u64) -> i128 {
    let a = a as i128;
    if a >> (w - 1) & 1 == 1 {
        a - (1i128 << w)
    } else {
        a
    }
}

/// A whole number modulo 2^w.
pub fn modulo(a: i128, w: u64) -> u64 {
    a.rem_euclid(1i128 << w) as u64
}

/// The signed quotient, remainder and modulus of kinds 44 to 46, on whole numbers.
pub fn signed_division(kind: u64, a: i128, b: i128) -> i128 {
    match (kind, b) {
        (44, 0) => {
            if a >= 0 {
                -1
            } else {
                1
            }
        }
        (_, 0) => a,
        (44, _) => a / b,
        (45, _) => a % b,
        _ => (a % b + b) % b,
    }
}

/// Whether the result of a detector, kinds 57 to 63, taken as a whole number, lies outside the width w of its operands.
pub fn overflows(kind: u64, w: u64, a: u64, b: u64) -> bool {
    let unsigned_outside = |n: i128| !(0..1 << w).contains(&n);
    let signed_outside = |n: i128| !(-1 << (w - 1)..1 << (w - 1)).contains(&n);
    let (ua, ub) = (i128::from(a), i128::from(b));
    let (sa, sb) = (signed(a, w), signed(b, w));
    match kind {
        57 => unsigned_outside(ua + ub),
        58 => signed_outside(sa + sb),
        59 => unsigned_outside(ua - ub),
        60 => signed_outside(sa - sb),
        // A product of 128 bits is no i128.
        61 => u128::from(a) * u128::from(b) >= 1 << w,
        62 => signed_outside(sa * sb),
        63 => sb != 0 && signed_outside(sa / sb),
        _ => unreachable!("kind {kind} is no detector"),
    }
}

/// The word of a line of kinds 11 to 52 and 57 to 63, and 53 on words.
/// `w` is the line's width, `widths` are those of its operands, `x` their words,
/// or the plain numbers of slice, uext and sext.
pub fn apply(kind: u64, w: u64, widths: [u64; 3], x: [u64; 3]) -> u64 {
    let [a, b, c] = x;
    let [wa, wb, _] = widths;
    let (wide_a, wide_b) = (a as u128, b as u128);
    let cut = |v: u128| (v % (1u128 << w)) as u64;
    let flip = |v: u64| ones(w) - v;
    let (sa, sb) = (|| signed(a, wa), || signed(b, wb));
    match kind {
        11 => flip(a),
        12 => modulo(-(a as i128), w),
        13 => cut(wide_a + 1),
        14 => modulo(a as i128 - 1, w),
        15 => u64::from(a == ones(wa)),
        16 => u64::from(a != 0),
        17 => u64::from(a.count_ones() % 2 == 1),
        18 => cut(wide_a >> c),
        19 => a,
        20 => modulo(sa(), w),
        21 => u64::from(a == b),
        22 => u64::from(a != b),
        23 => u64::from(a < b),
        24 => u64::from(a <= b),
        25 => u64::from(a > b),
        26 => u64::from(a >= b),
        27 => u64::from(sa() < sb()),
        28 => u64::from(sa() <= sb()),
        29 => u64::from(sa() > sb()),
        30 => u64::from(sa() >= sb()),
        31 => u64::from(a == b),
        32 => u64::from(a == 0 || b == 1),
        33 => a & b,
        34 => a | b,
        35 => a ^ b,
        36 => flip(a & b),
        37 => flip(a | b),
        38 => flip(a ^ b),
        39 => cut(wide_a + wide_b),
        40 => modulo(a as i128 - b as i128, w),
        41 => cut(wide_a * wide_b),
        42 => {
            if b == 0 {
                ones(w)
            } else {
                a / b
            }
        }
        43 => {
            if b == 0 {
                a
            } else {
                a % b
            }
        }
        44..=46 => modulo(signed_division(kind, sa(), sb()), w),
        47 => {
            if b >= w {
                0
            } else {
                cut(wide_a << b)
            }
        }
        48 => {
            if b >= w {
                0
            } else {
                a >> b
            }
        }
        49 => modulo(sa() >> b.min(w), w),
        50 => cut(wide_a << (b % w) | wide_a >> (w - b % w)),
        51 => cut(wide_a >> (b % w) | wide_a << (w - b % w)),
        52 => cut(wide_a << wb | wide_b),
        53 => {
            if a == 1 {
                b
            } else {
                c
            }
        }
        57..=63 => u64::from(overflows(kind, wa, a, b)),
        _ => unreachable!("kind {kind} is no operator on words"),
    }
}
