//! Batches of forms made smaller (document 02, (k)).

use crate::call::{Call, Entry};

/// The forms' bytes, form by form, and those behind them; none where the call has no such forms.
fn forms(call: &Call) -> Option<(Vec<&[u8]>, &[u8])> {
    let [_, length, count, _] = call.numbers.map(|number| number as usize);
    let all = call.file.get(..length.checked_mul(count)?)?;
    let is_batch = call.entry == Entry::Batch && count > 0;
    let forms = (0..count).map(|form| &all[form * length..][..length]);
    is_batch.then(|| (forms.collect(), &call.file[all.len()..]))
}

/// The batch without some forms from one of them on.
pub fn without_forms(call: &Call, from: usize, size: usize) -> Option<Call> {
    let (forms, behind) = forms(call)?;
    let kept = forms.get(..from)?.iter().chain(forms.get(from + size..)?);
    let kept: Vec<&[u8]> = kept.copied().collect();
    let mut smaller = call.clone();
    smaller.numbers[2] = kept.len() as u32;
    smaller.file = [&kept.concat(), behind].concat();
    Some(smaller)
}

/// The batch with so many bytes less at either end of every form.
pub fn with_shorter_forms(call: &Call, first: usize, last: usize) -> Option<Call> {
    let (forms, behind) = forms(call)?;
    let cut = |form: &&[u8]| {
        let end = form.len().checked_sub(last)?;
        Some(form.get(first..end)?.to_vec())
    };
    let cut: Option<Vec<Vec<u8>>> = forms.iter().map(cut).collect();
    let mut smaller = call.clone();
    smaller.file = [&cut?.concat(), behind].concat();
    smaller.numbers[0] = call.numbers[0].checked_add(first as u32)?;
    smaller.numbers[1] -= (first + last) as u32;
    Some(smaller)
}
