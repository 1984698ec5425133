//! Images and listings, each turned into the other and back (document 02, (h)): what is read out of an
//! image packs to it again, and a listing that was packed is read out of its image.

use crate::call::{perform, Call, Entry, Implementation, Returned};
use crate::firsts::same;

/// What became of the images and listings.
#[derive(Default, Debug)]
pub struct Images {
    pub images_back: u32,
    pub listings_back: u32,
    pub not_read: u32,
    pub not_packed: u32,
}

const SHORT_OUTPUT: u32 = -4105_i32 as u32;

/// What is lent, before it is written.
const LENT: u8 = 0xC3;
const LENT_NUMBER: u32 = 0xC3C3_C3C3;

/// Reads an image at the call's base and in its order, with room for so many kinds and operands. A
/// refusal has written nothing.
fn read(
    implementation: &Implementation,
    call: &Call,
    image: &[u8],
    [kinds, operands]: [usize; 2],
) -> Result<Returned, String> {
    let mut read = Call::new(Entry::Unpack);
    (read.order, read.numbers) = (call.order, call.numbers);
    read.file = image.to_vec();
    read.kinds = vec![LENT; kinds];
    read.operands = vec![LENT_NUMBER; operands];
    read.out = vec![LENT_NUMBER];
    let returned = perform(implementation, &read);
    same("a margin", returned.margins_kept)?;
    let unwritten = returned.lent == read;
    same("a refusal that writes", returned.answer == 0 || unwritten)?;
    same("an image that is written", returned.lent.file == image)?;
    Ok(returned)
}

/// Packs a listing at the call's base and in its order.
fn packed(
    implementation: &Implementation,
    call: &Call,
    (kinds, operands): (&[u8], &[u32]),
    room: usize,
) -> Result<Returned, String> {
    let mut pack = Call::new(Entry::Pack);
    (pack.order, pack.numbers) = (call.order, call.numbers);
    (pack.kinds, pack.operands) = (kinds.to_vec(), operands.to_vec());
    pack.output = vec![LENT; room];
    pack.out = vec![LENT_NUMBER];
    let returned = perform(implementation, &pack);
    same("a margin", returned.margins_kept)?;
    Ok(returned)
}

/// The listing comes out of the image, into arrays just as long, and into no shorter ones.
fn comes_out(
    implementation: &Implementation,
    call: &Call,
    image: &[u8],
    (kinds, operands): (&[u8], &[u32]),
) -> Result<(), String> {
    let items = kinds.len();
    let out = read(implementation, call, image, [items, items])?;
    same("read, answer", out.answer == 0)?;
    same("read, items", out.lent.out[0] as usize == items)?;
    same("read, kinds", out.lent.kinds == kinds)?;
    same("read, operands", out.lent.operands == operands)?;
    for room in [[items - 1, items], [items, items - 1]] {
        let too_short = read(implementation, call, image, room)?;
        same("one item less", too_short.answer == SHORT_OUTPUT)?;
    }
    Ok(())
}

/// Reads the call's image, and packs what was read.
fn try_image(
    implementation: &Implementation,
    call: &Call,
    tally: &mut Images,
) -> Result<(), String> {
    let image = &call.file;
    let room = image.len().min(4096) + 2;
    let first = read(implementation, call, image, [room, room])?;
    if first.answer != 0 {
        tally.not_read += 1;
        return Ok(());
    }
    let Call {
        kinds,
        operands,
        out,
        ..
    } = first.lent;
    let items = out[0] as usize;
    same(
        "count of items",
        (1..=4096.min(image.len())).contains(&items),
    )?;
    let (kinds, kinds_left) = kinds.split_at(items);
    let (operands, operands_left) = operands.split_at(items);
    let left = kinds_left.iter().all(|byte| *byte == LENT);
    let left = left && operands_left.iter().all(|number| *number == LENT_NUMBER);
    same("the rest", left)?;
    comes_out(implementation, call, image, (kinds, operands))?;
    let again = packed(implementation, call, (kinds, operands), image.len())?;
    same("packed again, answer", again.answer == 0)?;
    let bytes = 4 * again.lent.out[0] as usize;
    let alike = bytes == image.len() && again.lent.output == *image;
    same("packed again, image", alike)?;
    tally.images_back += 1;
    Ok(())
}

/// Packs the call's listing, and reads its image.
fn try_listing(
    implementation: &Implementation,
    call: &Call,
    tally: &mut Images,
) -> Result<(), String> {
    let listing = (&call.kinds[..], &call.operands[..]);
    let first = packed(implementation, call, listing, 8 * call.kinds.len())?;
    if first.answer != 0 {
        tally.not_packed += 1;
        return Ok(());
    }
    let bytes = 4 * first.lent.out[0] as usize;
    let image = first.lent.output.get(..bytes).ok_or("count of cells")?;
    comes_out(implementation, call, image, listing)?;
    tally.listings_back += 1;
    Ok(())
}

/// Tries a call's image, or its listing. The error says what differs.
pub fn try_call(
    implementation: &Implementation,
    call: &Call,
    tally: &mut Images,
) -> Result<(), String> {
    match call.entry {
        Entry::Unpack => try_image(implementation, call, tally),
        _ => try_listing(implementation, call, tally),
    }
}
