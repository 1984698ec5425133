//! The plain opcodes of table 7: all but NEXT, the literals and the branches in either form.

use super::arithmetic::{flag, shifted_left, shifted_right, signed, symmetric, unsigned};
use super::arithmetic::{floored, Division};
use super::control::{bracket_do, execute, exit, fetch_execute, halt, j, lib, unloop};
use super::instructions::*;
use super::memory::{Fault, Memory};

/// Carries out one plain opcode; any other raises -256.
#[inline(always)]
pub fn plain<M: Memory>(opcode: u8, m: &mut M, r: &mut Registers) -> Act {
    match opcode {
        // Stack manipulation
        0x01 => dup(m, r),                               // DUP
        0x02 => drop_item(m, r),                         // DROP
        0x03 => swap(m, r),                              // SWAP
        0x04 => over(m, r),                              // OVER
        0x05 => rotate(m, r, |x1, x2, x3| [x2, x3, x1]), // ROT
        0x06 => rotate(m, r, |x1, x2, x3| [x3, x1, x2]), // -ROT
        0x07 => tuck(m, r),                              // TUCK
        0x08 => dyadic(m, r, |_, x2| x2),                // NIP
        0x09 => pick(m, r),                              // PICK
        0x0A => roll(m, r),                              // ROLL
        0x0B => question_dup(m, r),                      // ?DUP
        0x0C => to_r(m, r),                              // >R
        0x0D => r_from(m, r),                            // R>
        0x0E => r_fetch(m, r),                           // R@
        // Comparison
        0x0F => dyadic(m, r, |n1, n2| flag(signed(n1) < signed(n2))), // <
        0x10 => dyadic(m, r, |n1, n2| flag(signed(n1) > signed(n2))), // >
        0x11 => dyadic(m, r, |x1, x2| flag(x1 == x2)),                // =
        0x12 => dyadic(m, r, |x1, x2| flag(x1 != x2)),                // <>
        0x13 => monadic(m, r, |n| flag(signed(n) < 0)),               // 0<
        0x14 => monadic(m, r, |n| flag(signed(n) > 0)),               // 0>
        0x15 => monadic(m, r, |x| flag(x == 0)),                      // 0=
        0x16 => monadic(m, r, |x| flag(x != 0)),                      // 0<>
        0x17 => dyadic(m, r, |u1, u2| flag(u1 < u2)),                 // U<
        0x18 => dyadic(m, r, |u1, u2| flag(u1 > u2)),                 // U>
        // Arithmetic
        0x19 => push(m, r, 0),                                            // 0
        0x1A => push(m, r, 1),                                            // 1
        0x1B => push(m, r, -1_i32 as u32),                                // -1
        0x1C => push(m, r, 4),                                            // CELL
        0x1D => push(m, r, -4_i32 as u32),                                // -CELL
        0x1E => dyadic(m, r, u32::wrapping_add),                          // +
        0x1F => dyadic(m, r, u32::wrapping_sub),                          // -
        0x20 => dyadic(m, r, |n1, n2| n2.wrapping_sub(n1)),               // >-<
        0x21 => monadic(m, r, |n| n.wrapping_add(1)),                     // 1+
        0x22 => monadic(m, r, |n| n.wrapping_sub(1)),                     // 1-
        0x23 => monadic(m, r, |n| n.wrapping_add(4)),                     // CELL+
        0x24 => monadic(m, r, |n| n.wrapping_sub(4)),                     // CELL-
        0x25 => dyadic(m, r, u32::wrapping_mul),                          // *
        0x26 => divide(m, r, |d: Division| d.quotient),                   // /
        0x27 => divide(m, r, |d: Division| d.remainder),                  // MOD
        0x28 => divide_both(m, r, floored),                               // /MOD
        0x29 => divide_both(m, r, unsigned),                              // U/MOD
        0x2A => divide_both(m, r, symmetric),                             // S/REM
        0x2B => monadic(m, r, |x| (signed(x) >> 1) as u32),               // 2/
        0x2C => monadic(m, r, |n| n.wrapping_mul(4)),                     // CELLS
        0x2D => monadic(m, r, |n| signed(n).unsigned_abs()),              // ABS
        0x2E => monadic(m, r, u32::wrapping_neg),                         // NEGATE
        0x2F => dyadic(m, r, |n1, n2| signed(n1).max(signed(n2)) as u32), // MAX
        0x30 => dyadic(m, r, |n1, n2| signed(n1).min(signed(n2)) as u32), // MIN
        // Logic and shifts
        0x31 => monadic(m, r, |x| !x),          // INVERT
        0x32 => dyadic(m, r, |x1, x2| x1 & x2), // AND
        0x33 => dyadic(m, r, |x1, x2| x1 | x2), // OR
        0x34 => dyadic(m, r, |x1, x2| x1 ^ x2), // XOR
        0x35 => dyadic(m, r, shifted_left),     // LSHIFT
        0x36 => dyadic(m, r, shifted_right),    // RSHIFT
        0x37 => monadic(m, r, |x| x << 1),      // 1LSHIFT
        0x38 => monadic(m, r, |x| x >> 1),      // 1RSHIFT
        // Memory
        0x39 => fetch(m, r),      // @
        0x3A => store(m, r),      // !
        0x3B => c_fetch(m, r),    // C@
        0x3C => c_store(m, r),    // C!
        0x3D => plus_store(m, r), // +!
        // Registers
        0x3E => push(m, r, r.sp), // SP@
        0x3F => sp_store(m, r),   // SP!
        0x40 => push(m, r, r.rp), // RP@
        0x41 => rp_store(m, r),   // RP!
        // Control structures
        0x46 => execute(m, r),       // EXECUTE
        0x47 => fetch_execute(m, r), // @EXECUTE
        0x4A => exit(m, r),          // EXIT
        0x4B => bracket_do(m, r),    // (DO)
        0x50 => unloop(m, r),        // UNLOOP
        0x51 => j(m, r),             // J
        // Exceptions and external access
        0x54 => Ok(Control::Throw), // THROW
        0x55 => halt(m, r),         // HALT
        0x57 => lib(m, r),          // LIB
        _ => Err(Fault::IllegalOpcode),
    }
}
