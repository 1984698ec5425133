//! Listing files turned into the other sort (document 02, (l)): each comes back byte for byte, and
//! packs as the file that it was turned into does.

use crate::call::{perform, Call, Entry, Implementation, Returned};
use crate::firsts::same;

/// What became of the files.
#[derive(Default, Debug)]
pub struct Shorts {
    pub old_back: u32,
    pub short_back: u32,
    pub packed: u32,
    pub not_packed: u32,
    pub refused: u32,
}

/// A sort of files: what turns it into the other sort, and what packs it.
struct Sort {
    turn: Entry,
    pack: Entry,
}

const OLD: Sort = Sort {
    turn: Entry::Shorten,
    pack: Entry::PackFile,
};

const SHORT: Sort = Sort {
    turn: Entry::Lengthen,
    pack: Entry::PackShort,
};

const SHORT_OUTPUT: u32 = -4105_i32 as u32;
const BYTE_ORDER: u32 = -4102_i32 as u32;

/// Turns a file into the other sort, in an output of so many bytes. A refusal has written nothing.
fn turned(
    implementation: &Implementation,
    sort: &Sort,
    file: &[u8],
    room: usize,
) -> Result<Returned, String> {
    let mut call = Call::new(sort.turn);
    call.file = file.to_vec();
    call.output = vec![0xC3; room];
    call.out = vec![0xC3C3_C3C3];
    let returned = perform(implementation, &call);
    same("a margin", returned.margins_kept)?;
    let unwritten = returned.lent == call;
    same("a refusal that writes", returned.answer == 0 || unwritten)?;
    Ok(returned)
}

/// Packs a file of a sort, all else as the call has it.
fn packed(implementation: &Implementation, sort: &Sort, file: &[u8], call: &Call) -> Returned {
    let mut call = call.clone();
    call.entry = sort.pack;
    call.file = file.to_vec();
    perform(implementation, &call)
}

/// A file that is not turned is not packed either, for the same reason.
fn not_turned(
    implementation: &Implementation,
    sort: &Sort,
    call: &Call,
    refusal: u32,
) -> Result<(), String> {
    let pack = packed(implementation, sort, &call.file, call);
    let expected = if call.order > 1 { BYTE_ORDER } else { refusal };
    same("turned and packed, refusals", pack.answer == expected)
}

/// The way back has room in as many bytes as the file has, and in no fewer.
fn comes_back(
    implementation: &Implementation,
    sort: &Sort,
    file: &[u8],
    other: &[u8],
) -> Result<(), String> {
    let length = file.len();
    let back = turned(implementation, sort, other, length)?;
    let counted = back.lent.out[0] as usize == length;
    same("the way back, answer", back.answer == 0 && counted)?;
    same("the way back, file", back.lent.output == file)?;
    let too_short = turned(implementation, sort, other, length.saturating_sub(1))?;
    same("a byte less", too_short.answer == SHORT_OUTPUT)
}

/// Both files pack with one answer to one image; whether they are packed.
fn pack_alike(
    implementation: &Implementation,
    [(sort, file), (other_sort, other)]: [(&Sort, &[u8]); 2],
    call: &Call,
) -> Result<bool, String> {
    let one = packed(implementation, sort, file, call);
    let two = packed(implementation, other_sort, other, call);
    same("a margin", one.margins_kept && two.margins_kept)?;
    same("packed, answers", one.answer == two.answer)?;
    same("packed, cells", one.lent.out == two.lent.out)?;
    same("packed, images", one.lent.output == two.lent.output)?;
    Ok(one.answer == 0)
}

/// Tries a file as one sort; whether it was turned.
fn try_sort(
    implementation: &Implementation,
    [sort, other_sort]: [&Sort; 2],
    call: &Call,
    tally: &mut Shorts,
) -> Result<bool, String> {
    let file = &call.file;
    let first = turned(implementation, sort, file, 12 + 5 * file.len())?;
    if first.answer != 0 {
        not_turned(implementation, sort, call, first.answer)?;
        return Ok(false);
    }
    let count = first.lent.out[0] as usize;
    let parts = first.lent.output.split_at_checked(count);
    let (other, rest) = parts.ok_or("count of bytes")?;
    same("the rest", rest.iter().all(|byte| *byte == 0xC3))?;
    comes_back(implementation, other_sort, file, other)?;
    let files = [(sort, &file[..]), (other_sort, other)];
    let packed = pack_alike(implementation, files, call)?;
    tally.packed += u32::from(packed);
    tally.not_packed += u32::from(!packed);
    Ok(true)
}

/// Tries a call's file as either sort. The error says what differs.
pub fn try_file(
    implementation: &Implementation,
    call: &Call,
    tally: &mut Shorts,
) -> Result<(), String> {
    let old = try_sort(implementation, [&OLD, &SHORT], call, tally)?;
    let short = try_sort(implementation, [&SHORT, &OLD], call, tally)?;
    tally.old_back += u32::from(old);
    tally.short_back += u32::from(short);
    tally.refused += u32::from(!old && !short);
    Ok(())
}
