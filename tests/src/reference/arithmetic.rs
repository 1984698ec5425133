//! Arithmetic of cells (document 001, sections 3.3 to 3.5). Sums and products are taken modulo
//! 2^32.

/// Flags are FFFFFFFFh or 0.
#[inline(always)]
pub fn flag(truth: bool) -> u32 {
    if truth {
        0xFFFF_FFFF
    } else {
        0
    }
}

/// A cell as a signed number.
#[inline(always)]
pub fn signed(cell: u32) -> i32 {
    cell as i32
}

/// Remainder and quotient.
pub struct Division {
    pub remainder: u32,
    pub quotient: u32,
}

/// / MOD /MOD: toward minus infinity. The divisor is not 0; -2^31 by -1 gives -2^31 and 0.
#[inline(always)]
pub fn floored(dividend: u32, divisor: u32) -> Division {
    let (n, d) = (i64::from(signed(dividend)), i64::from(signed(divisor)));
    let toward_zero = n / d;
    let inexact = n % d != 0;
    let negative = (n < 0) != (d < 0);
    let quotient = if inexact && negative {
        toward_zero - 1
    } else {
        toward_zero
    };
    Division {
        remainder: (n - quotient * d) as u32,
        quotient: quotient as u32,
    }
}

/// S/REM: toward zero.
#[inline(always)]
pub fn symmetric(dividend: u32, divisor: u32) -> Division {
    let (n, d) = (i64::from(signed(dividend)), i64::from(signed(divisor)));
    Division {
        remainder: (n % d) as u32,
        quotient: (n / d) as u32,
    }
}

/// U/MOD.
#[inline(always)]
pub fn unsigned(dividend: u32, divisor: u32) -> Division {
    Division {
        remainder: dividend % divisor,
        quotient: dividend / divisor,
    }
}

/// LSHIFT: 0 from 32 places on.
#[inline(always)]
pub fn shifted_left(cell: u32, places: u32) -> u32 {
    if places >= 32 {
        0
    } else {
        cell << places
    }
}

/// RSHIFT: 0 from 32 places on.
#[inline(always)]
pub fn shifted_right(cell: u32, places: u32) -> u32 {
    if places >= 32 {
        0
    } else {
        cell >> places
    }
}

/// Whether a step of (+LOOP) ends the loop. Cells lie on a circle, and the index stands `above` the
/// limit, counted upwards; the loop ends where that and the step, a signed number, add up to no such
/// distance.
#[inline(always)]
pub fn ends_loop(index: u32, limit: u32, step: u32) -> bool {
    let above = i64::from(index.wrapping_sub(limit));
    let sum = above + i64::from(signed(step));
    !(0..1 << 32).contains(&sum)
}
