//! What each instruction does to stacks and memory (document 001, sections 3.2 to 3.12).
//!
//! Every function reads its operands in document 01's order, then checks the places to be
//! written, and only then writes and moves the stack pointers: a fault leaves all as it was.

use super::arithmetic::{floored, Division};
use super::memory::{Fault, Memory, Order};
use super::stacks::Stacks;
use super::tables::Stores;

/// EP, A, SP, RP: they travel with each call.
#[derive(Clone, Copy, PartialEq, Eq, Debug, Default)]
pub struct Registers {
    pub ep: u32,
    pub a: u32,
    pub sp: u32,
    pub rp: u32,
}

/// How an instruction goes on.
#[derive(Clone, Copy, PartialEq, Eq, Debug)]
pub enum Control {
    Continue,
    /// EP takes the address; NEXT.
    Jump(u32),
    /// THROW (54h).
    Throw,
    Stop(u32),
}

/// Reason -258, of a bad SP.
pub const BAD_STACK: u32 = -258_i32 as u32;

pub type Act = Result<Control, Fault>;

#[inline(always)]
pub fn below(address: u32, cells: u32) -> u32 {
    address.wrapping_sub(4 * cells)
}

#[inline(always)]
pub fn above(address: u32, cells: u32) -> u32 {
    address.wrapping_add(4 * cells)
}

/// ( -- x )
#[inline(always)]
pub fn push(m: &mut impl Memory, r: &mut Registers, x: u32) -> Act {
    let place = below(r.sp, 1);
    m.check_data(place)?;
    m.set_cell(place, x);
    r.sp = place;
    Ok(Control::Continue)
}

/// DUP ( x -- x x )
#[inline(always)]
pub fn dup(m: &mut impl Memory, r: &mut Registers) -> Act {
    let x = m.data_item(r.sp)?;
    push(m, r, x)
}

/// R: ( -- a-addr ), then a jump.
#[inline(always)]
pub fn call_from(m: &mut impl Memory, r: &mut Registers, back: u32, target: u32) -> Act {
    let place = below(r.rp, 1);
    m.check_return(place)?;
    m.set_cell(place, back);
    r.rp = place;
    Ok(Control::Jump(target))
}

/// One item in the place of two.
#[inline(always)]
fn replace_two(m: &mut impl Memory, r: &mut Registers, x: u32) -> Act {
    let place = above(r.sp, 1);
    m.check_data(place)?;
    m.set_cell(place, x);
    r.sp = place;
    Ok(Control::Continue)
}

/// Two items in the place of two, the deeper one first.
#[inline(always)]
fn replace_pair(m: &mut impl Memory, r: &mut Registers, deeper: u32, top: u32) -> Act {
    m.check_data(above(r.sp, 1))?;
    m.check_data(r.sp)?;
    m.set_cell(above(r.sp, 1), deeper);
    m.set_cell(r.sp, top);
    Ok(Control::Continue)
}

/// ( x1 -- x2 )
#[inline(always)]
pub fn monadic(m: &mut impl Memory, r: &mut Registers, of: impl Fn(u32) -> u32) -> Act {
    let x1 = m.data_item(r.sp)?;
    m.check_data(r.sp)?;
    m.set_cell(r.sp, of(x1));
    Ok(Control::Continue)
}

/// ( x1 x2 -- x3 )
#[inline(always)]
pub fn dyadic(m: &mut impl Memory, r: &mut Registers, of: impl Fn(u32, u32) -> u32) -> Act {
    let x2 = m.data_item(r.sp)?;
    let x1 = m.data_item(above(r.sp, 1))?;
    replace_two(m, r, of(x1, x2))
}

/// ( n1 n2 -- ): the operands of a division; the divisor is checked once both are read.
#[inline(always)]
fn divided(
    m: &impl Memory,
    r: &Registers,
    of: impl Fn(u32, u32) -> Division,
) -> Result<Division, Fault> {
    let n2 = m.data_item(r.sp)?;
    let n1 = m.data_item(above(r.sp, 1))?;
    if n2 == 0 {
        return Err(Fault::DivisionByZero);
    }
    Ok(of(n1, n2))
}

/// ( n1 n2 -- n3 ): / and MOD.
#[inline(always)]
pub fn divide(m: &mut impl Memory, r: &mut Registers, of: impl Fn(Division) -> u32) -> Act {
    let division = divided(m, r, floored)?;
    replace_two(m, r, of(division))
}

/// ( n1 n2 -- n3 n4 ): the remainder below the quotient.
#[inline(always)]
pub fn divide_both(
    m: &mut impl Memory,
    r: &mut Registers,
    of: impl Fn(u32, u32) -> Division,
) -> Act {
    let division = divided(m, r, of)?;
    replace_pair(m, r, division.remainder, division.quotient)
}

/// DROP ( x -- )
#[inline(always)]
pub fn drop_item(m: &mut impl Memory, r: &mut Registers) -> Act {
    m.data_item(r.sp)?;
    r.sp = above(r.sp, 1);
    Ok(Control::Continue)
}

/// SWAP ( x1 x2 -- x2 x1 )
#[inline(always)]
pub fn swap(m: &mut impl Memory, r: &mut Registers) -> Act {
    let x2 = m.data_item(r.sp)?;
    let x1 = m.data_item(above(r.sp, 1))?;
    replace_pair(m, r, x2, x1)
}

/// OVER ( x1 x2 -- x1 x2 x1 )
#[inline(always)]
pub fn over(m: &mut impl Memory, r: &mut Registers) -> Act {
    m.data_item(r.sp)?;
    let x1 = m.data_item(above(r.sp, 1))?;
    push(m, r, x1)
}

/// ROT ( x1 x2 x3 -- x2 x3 x1 ) and -ROT ( x1 x2 x3 -- x3 x1 x2 ); `after` gives the after
/// picture, deepest first.
#[inline(always)]
pub fn rotate(
    m: &mut impl Memory,
    r: &mut Registers,
    after: impl Fn(u32, u32, u32) -> [u32; 3],
) -> Act {
    let x3 = m.data_item(r.sp)?;
    let x2 = m.data_item(above(r.sp, 1))?;
    let x1 = m.data_item(above(r.sp, 2))?;
    let [deepest, middle, top] = after(x1, x2, x3);
    m.check_data(above(r.sp, 2))?;
    m.check_data(above(r.sp, 1))?;
    m.check_data(r.sp)?;
    m.set_cell(above(r.sp, 2), deepest);
    m.set_cell(above(r.sp, 1), middle);
    m.set_cell(r.sp, top);
    Ok(Control::Continue)
}

/// TUCK ( x1 x2 -- x2 x1 x2 )
#[inline(always)]
pub fn tuck(m: &mut impl Memory, r: &mut Registers) -> Act {
    let x2 = m.data_item(r.sp)?;
    let x1 = m.data_item(above(r.sp, 1))?;
    m.check_data(above(r.sp, 1))?;
    m.check_data(r.sp)?;
    m.check_data(below(r.sp, 1))?;
    m.set_cell(above(r.sp, 1), x2);
    m.set_cell(r.sp, x1);
    push(m, r, x2)
}

/// x_u and its address, which is exact and not wrapped; judged right after u is read.
#[inline(always)]
fn deep_item(m: &impl Memory, sp: u32, u: u32) -> Result<(u32, u32), Fault> {
    let exact = u64::from(sp) + 4 + 4 * u64::from(u);
    let address = exact as u32;
    if exact >= u64::from(m.length()) {
        return Err(Fault::InvalidAddress(address));
    }
    Ok((m.data_item(address)?, address))
}

/// PICK ( x_u .. x0 u -- x_u .. x0 x_u )
#[inline(always)]
pub fn pick(m: &mut impl Memory, r: &mut Registers) -> Act {
    let u = m.data_item(r.sp)?;
    let (x_u, _) = deep_item(m, r.sp, u)?;
    m.check_data(r.sp)?;
    m.set_cell(r.sp, x_u);
    Ok(Control::Continue)
}

/// Every item from `top` on takes the place below it, down to `deepest`, whose item is lost.
#[inline(always)]
fn roll_down(m: &mut impl Memory, top: u32, deepest: u32) -> Result<(), Fault> {
    let places = (top..=deepest).rev().step_by(4);
    for place in places.clone() {
        m.check_data(place)?;
    }
    for place in places.take_while(|place| *place > top) {
        let item_above = m.cell(below(place, 1));
        m.set_cell(place, item_above);
    }
    Ok(())
}

/// ROLL ( x_u .. x0 u -- x_u-1 .. x0 x_u )
#[inline(always)]
pub fn roll(m: &mut impl Memory, r: &mut Registers) -> Act {
    let u = m.data_item(r.sp)?;
    let (x_u, deepest) = deep_item(m, r.sp, u)?;
    let top = above(r.sp, 1);
    if u > 0 {
        roll_down(m, top, deepest)?;
        m.set_cell(top, x_u);
    }
    r.sp = top;
    Ok(Control::Continue)
}

/// ?DUP ( x -- 0 | x x ): on 0 nothing is written.
#[inline(always)]
pub fn question_dup(m: &mut impl Memory, r: &mut Registers) -> Act {
    match m.data_item(r.sp)? {
        0 => Ok(Control::Continue),
        x => push(m, r, x),
    }
}

/// >R ( x -- ) R: ( -- x )
#[inline(always)]
pub fn to_r(m: &mut impl Memory, r: &mut Registers) -> Act {
    let x = m.data_item(r.sp)?;
    let place = below(r.rp, 1);
    m.check_return(place)?;
    m.set_cell(place, x);
    r.rp = place;
    r.sp = above(r.sp, 1);
    Ok(Control::Continue)
}

/// R> ( -- x ) R: ( x -- )
#[inline(always)]
pub fn r_from(m: &mut impl Memory, r: &mut Registers) -> Act {
    r_fetch(m, r)?;
    r.rp = above(r.rp, 1);
    Ok(Control::Continue)
}

/// R@ ( -- x ) R: ( x -- x )
#[inline(always)]
pub fn r_fetch(m: &mut impl Memory, r: &mut Registers) -> Act {
    let x = m.return_item(r.rp)?;
    push(m, r, x)
}

/// C@, C!: with the most significant byte first, the two low bits of the address are inverted.
#[inline(always)]
fn byte_address(m: &impl Memory, address: u32) -> u32 {
    match m.order() {
        Order::LeastFirst => address,
        Order::MostFirst => address ^ 3,
    }
}

/// @ ( a-addr -- x )
#[inline(always)]
pub fn fetch(m: &mut impl Memory, r: &mut Registers) -> Act {
    let x = m.fetch(m.data_item(r.sp)?)?;
    m.check_data(r.sp)?;
    m.set_cell(r.sp, x);
    Ok(Control::Continue)
}

/// ! ( x a-addr -- )
#[inline(always)]
pub fn store(m: &mut impl Memory, r: &mut Registers) -> Act {
    let address = m.data_item(r.sp)?;
    let x = m.data_item(above(r.sp, 1))?;
    m.check_store(address)?;
    m.set_cell(address, x);
    r.sp = above(r.sp, 2);
    Ok(Control::Continue)
}

/// C@ ( c-addr -- char )
#[inline(always)]
pub fn c_fetch(m: &mut impl Memory, r: &mut Registers) -> Act {
    let address = byte_address(m, m.data_item(r.sp)?);
    m.check_byte(address)?;
    let char = m.byte(address);
    m.check_data(r.sp)?;
    m.set_cell(r.sp, u32::from(char));
    Ok(Control::Continue)
}

/// C! ( char c-addr -- )
#[inline(always)]
pub fn c_store(m: &mut impl Memory, r: &mut Registers) -> Act {
    let address = byte_address(m, m.data_item(r.sp)?);
    let char = m.data_item(above(r.sp, 1))?;
    m.check_store_byte(address)?;
    m.set_byte(address, char as u8);
    r.sp = above(r.sp, 2);
    Ok(Control::Continue)
}

/// +! ( n a-addr -- )
#[inline(always)]
pub fn plus_store(m: &mut impl Memory, r: &mut Registers) -> Act {
    let address = m.data_item(r.sp)?;
    let n = m.data_item(above(r.sp, 1))?;
    let old = m.fetch(address)?;
    m.check_store(address)?;
    m.set_cell(address, old.wrapping_add(n));
    r.sp = above(r.sp, 2);
    Ok(Control::Continue)
}

/// The operand of SP! and RP!: -23 where it is unaligned, and no check of range.
#[inline(always)]
fn pointer_operand(m: &impl Memory, r: &Registers) -> Result<u32, Fault> {
    let pointer = m.data_item(r.sp)?;
    if !pointer.is_multiple_of(4) {
        return Err(Fault::Alignment(pointer));
    }
    Ok(pointer)
}

/// SP! ( a-addr -- )
#[inline(always)]
pub fn sp_store(m: &mut impl Memory, r: &mut Registers) -> Act {
    r.sp = pointer_operand(m, r)?;
    Ok(Control::Continue)
}

/// RP! ( a-addr -- )
#[inline(always)]
pub fn rp_store(m: &mut impl Memory, r: &mut Registers) -> Act {
    r.rp = pointer_operand(m, r)?;
    r.sp = above(r.sp, 1);
    Ok(Control::Continue)
}
