//! Branches, calls and loops (document 001, section 3.8), HALT and LIB.
//!
//! The five branches of a listing stand here once for all their forms: `target` gives the operand,
//! which the processor's cell form fetches at EP, only when the branch is taken and after the
//! stacks are read. Each answers whether it was taken, and where to.

use super::arithmetic::ends_loop;
use super::instructions::{above, below, call_from, Act, Control, Registers, BAD_STACK};
use super::memory::{Fault, Memory};
use super::stacks::Stacks;

/// A branch that was taken, or not (a loop that ended counts as not taken).
#[derive(Clone, Copy, PartialEq, Eq, Debug)]
pub enum Branch {
    Taken(u32),
    NotTaken,
}

pub type Branching = Result<Branch, Fault>;

/// BRANCH ( -- )
#[inline(always)]
pub fn branch<M: Memory>(m: &M, target: impl Fn(&M) -> Result<u32, Fault>) -> Branching {
    Ok(Branch::Taken(target(m)?))
}

/// ?BRANCH ( flag -- ): taken on false.
#[inline(always)]
pub fn question_branch<M: Memory>(
    m: &M,
    r: &mut Registers,
    target: impl Fn(&M) -> Result<u32, Fault>,
) -> Branching {
    let branching = match m.data_item(r.sp)? {
        0 => Branch::Taken(target(m)?),
        _ => Branch::NotTaken,
    };
    r.sp = above(r.sp, 1);
    Ok(branching)
}

/// CALL ( -- ) R: ( -- a-addr )
#[inline(always)]
pub fn call<M: Memory>(
    m: &mut M,
    r: &mut Registers,
    back: u32,
    target: impl Fn(&M) -> Result<u32, Fault>,
) -> Branching {
    let address = target(m)?;
    call_from(m, r, back, address)?;
    Ok(Branch::Taken(address))
}

/// (LOOP) R: ( n1 n2 -- | n1 n3 ): adds 1 and ends when the index equals the limit.
#[inline(always)]
pub fn loop_once<M: Memory>(
    m: &mut M,
    r: &mut Registers,
    target: impl Fn(&M) -> Result<u32, Fault>,
) -> Branching {
    let index = m.return_item(r.rp)?;
    let limit = m.return_item(above(r.rp, 1))?;
    let new = index.wrapping_add(1);
    step(m, r, new == limit, new, target)
}

/// (+LOOP) ( n -- ) R: ( n2 n3 -- | n2 n4 )
#[inline(always)]
pub fn plus_loop<M: Memory>(
    m: &mut M,
    r: &mut Registers,
    target: impl Fn(&M) -> Result<u32, Fault>,
) -> Branching {
    let n = m.data_item(r.sp)?;
    let index = m.return_item(r.rp)?;
    let limit = m.return_item(above(r.rp, 1))?;
    let new = index.wrapping_add(n);
    let branching = step(m, r, ends_loop(index, limit, n), new, target)?;
    r.sp = above(r.sp, 1);
    Ok(branching)
}

/// Ending drops both items; going on writes the index.
#[inline(always)]
fn step<M: Memory>(
    m: &mut M,
    r: &mut Registers,
    ends: bool,
    index: u32,
    target: impl Fn(&M) -> Result<u32, Fault>,
) -> Branching {
    if ends {
        r.rp = above(r.rp, 2);
        return Ok(Branch::NotTaken);
    }
    let address = target(m)?;
    m.check_return(r.rp)?;
    m.set_cell(r.rp, index);
    Ok(Branch::Taken(address))
}

/// EXECUTE ( xt -- ) R: ( -- a-addr )
#[inline(always)]
pub fn execute(m: &mut impl Memory, r: &mut Registers) -> Act {
    let xt = m.data_item(r.sp)?;
    let jump = call_from(m, r, r.ep, xt)?;
    r.sp = above(r.sp, 1);
    Ok(jump)
}

/// @EXECUTE ( a-addr1 -- ) R: ( -- a-addr2 )
#[inline(always)]
pub fn fetch_execute(m: &mut impl Memory, r: &mut Registers) -> Act {
    let xt = m.fetch(m.data_item(r.sp)?)?;
    let jump = call_from(m, r, r.ep, xt)?;
    r.sp = above(r.sp, 1);
    Ok(jump)
}

/// EXIT ( -- ) R: ( a-addr -- )
#[inline(always)]
pub fn exit(m: &mut impl Memory, r: &mut Registers) -> Act {
    let address = m.return_item(r.rp)?;
    r.rp = above(r.rp, 1);
    Ok(Control::Jump(address))
}

/// (DO) ( x1 x2 -- ) R: ( -- x1 x2 ): limit and index, index on top.
#[inline(always)]
pub fn bracket_do(m: &mut impl Memory, r: &mut Registers) -> Act {
    let x2 = m.data_item(r.sp)?;
    let x1 = m.data_item(above(r.sp, 1))?;
    m.check_return(below(r.rp, 1))?;
    m.check_return(below(r.rp, 2))?;
    m.set_cell(below(r.rp, 1), x1);
    m.set_cell(below(r.rp, 2), x2);
    r.rp = below(r.rp, 2);
    r.sp = above(r.sp, 2);
    Ok(Control::Continue)
}

/// UNLOOP R: ( x1 x2 -- )
#[inline(always)]
pub fn unloop(m: &mut impl Memory, r: &mut Registers) -> Act {
    m.return_item(r.rp)?;
    m.return_item(above(r.rp, 1))?;
    r.rp = above(r.rp, 2);
    Ok(Control::Continue)
}

/// J ( -- x1 ) R: ( x1 x2 x3 -- x1 x2 x3 )
#[inline(always)]
pub fn j(m: &mut impl Memory, r: &mut Registers) -> Act {
    m.return_item(r.rp)?;
    m.return_item(above(r.rp, 1))?;
    let x1 = m.return_item(above(r.rp, 2))?;
    super::instructions::push(m, r, x1)
}

/// HALT ( x -- ): stops with x, or with -258 where no x can be popped.
#[inline(always)]
pub fn halt(m: &mut impl Memory, r: &mut Registers) -> Act {
    match m.data_item(r.sp) {
        Ok(reason) => {
            r.sp = above(r.sp, 1);
            Ok(Control::Stop(reason))
        }
        Err(_) => Ok(Control::Stop(BAD_STACK)),
    }
}

/// LIB is always -257, once its operand could be read.
#[inline(always)]
pub fn lib(m: &mut impl Memory, r: &mut Registers) -> Act {
    m.data_item(r.sp)?;
    Err(Fault::LibraryRoutine)
}
