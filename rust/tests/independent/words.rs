//! What the operators mean in a program: 64-bit words, of which only the low bits may count.

use super::meaning::{modulo, overflows, signed, signed_division};
use super::rules::ones;

/// The word of an instruction of kinds 11 to 53 and 56 to 63.
/// `w` is its width, `widths` are those of its operands, `x` their whole words,
/// or the plain numbers of slice, uext and sext.
pub fn apply(kind: u64, w: u64, widths: [u64; 3], x: [u64; 3]) -> u64 {
    let [a, b, c] = x;
    let [wa, wb, _] = widths;
    let low_b = b & ones(wb);
    let (sa, sb) = (|| signed(a & ones(wa), wa), || signed(b & ones(wb), wb));
    match kind {
        11 => !a,
        12 => a.wrapping_neg(),
        13 => a.wrapping_add(1),
        14 => a.wrapping_sub(1),
        15 => u64::from(a == ones(wa)),
        16 => u64::from(a != 0),
        17 => u64::from(a.count_ones() % 2 == 1),
        18 => a >> c,
        19 => a,
        20 => modulo(sa(), w),
        21 => u64::from(a == b),
        22 => u64::from(a != b),
        23 => u64::from(a < b),
        24 => u64::from(a <= b),
        25 => u64::from(a > b),
        26 => u64::from(a >= b),
        27 => u64::from(sa() < sb()),
        28 => u64::from(sa() <= sb()),
        29 => u64::from(sa() > sb()),
        30 => u64::from(sa() >= sb()),
        31 => !(a ^ b),
        32 => !a | b,
        33 => a & b,
        34 => a | b,
        35 => a ^ b,
        36 => !(a & b),
        37 => !(a | b),
        38 => !(a ^ b),
        39 => a.wrapping_add(b),
        40 => a.wrapping_sub(b),
        41 => a.wrapping_mul(b),
        42 => {
            if b == 0 {
                ones(w)
            } else {
                a / b
            }
        }
        43 => {
            if b == 0 {
                a
            } else {
                a % b
            }
        }
        44..=46 => modulo(signed_division(kind, sa(), sb()), w),
        47 => {
            if b >= w {
                0
            } else {
                a << b
            }
        }
        48 => {
            if b >= w {
                0
            } else {
                a >> b
            }
        }
        49 => modulo(sa() >> low_b.min(w), w),
        50 | 51 => super::meaning::apply(kind, w, widths, [a & ones(wa), low_b, 0]),
        52 => a << wb | b,
        53 => {
            if a != 0 {
                b
            } else {
                c
            }
        }
        56 => a & ones(w),
        57..=63 => u64::from(overflows(kind, wa, a & ones(wa), low_b)),
        _ => unreachable!("kind {kind} is no operator of a program"),
    }
}
