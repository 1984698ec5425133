//! Numbers as they are written: decimal with or without a sign, or hexadecimal with a trailing h.

/// Why a word is no number that a cell holds.
#[derive(Clone, Copy, PartialEq, Eq, Debug)]
pub enum NoCell {
    /// The word does not read as a number.
    NotANumber,
    /// It is below -2^31 or above 2^32 - 1.
    TooLarge,
}

/// The digits of a decimal number, its sign set aside.
fn is_decimal(word: &str) -> bool {
    let digits = word.strip_prefix(['-', '+']).unwrap_or(word);
    !digits.is_empty() && digits.bytes().all(|b| b.is_ascii_digit())
}

/// The digits of a hexadecimal number.
fn hexadecimal(word: &str) -> Option<&str> {
    let digits = word.strip_suffix(['h', 'H'])?;
    let good = !digits.is_empty() && digits.bytes().all(|b| b.is_ascii_hexdigit());
    good.then_some(digits)
}

/// A number of any size that a file or a machine may have.
pub fn whole(word: &str) -> Result<i128, NoCell> {
    if let Some(digits) = hexadecimal(word) {
        return i128::from_str_radix(digits, 16).map_err(|_| NoCell::TooLarge);
    }
    if is_decimal(word) {
        return word.parse().map_err(|_| NoCell::TooLarge);
    }
    Err(NoCell::NotANumber)
}

/// A number from -2^31 to 2^32 - 1, as a cell.
pub fn cell(word: &str) -> Result<u32, NoCell> {
    let value = whole(word)?;
    if let Ok(unsigned) = u32::try_from(value) {
        return Ok(unsigned);
    }
    match i32::try_from(value) {
        Ok(signed) => Ok(signed as u32),
        Err(_) => Err(NoCell::TooLarge),
    }
}

/// A number from 0 to 2^32 - 1, as an address or a count.
pub fn unsigned(word: &str) -> Option<u32> {
    u32::try_from(whole(word).ok()?).ok()
}

/// A cell in decimal, and in hexadecimal where that says more.
pub fn shown(value: u32) -> String {
    if value < 10 {
        value.to_string()
    } else {
        format!("{} ({value:X}h)", value as i32)
    }
}

#[cfg(test)]
mod tests {
    use super::*;

    #[test]
    fn numbers_at_the_edges() {
        assert_eq!(cell("4294967295"), Ok(u32::MAX));
        assert_eq!(cell("4294967296"), Err(NoCell::TooLarge));
        assert_eq!(cell("-2147483648"), Ok(0x8000_0000));
        assert_eq!(cell("-2147483649"), Err(NoCell::TooLarge));
        assert_eq!(cell("FFFFFFFFh"), Ok(u32::MAX));
        assert_eq!(cell("100000000h"), Err(NoCell::TooLarge));
        let long = "9".repeat(80);
        assert_eq!(cell(&long), Err(NoCell::TooLarge));
    }

    #[test]
    fn words_that_are_no_numbers() {
        for word in ["", "h", "-", "-FFh", "12x", "FF", "0x10", "1_000"] {
            assert_eq!(cell(word), Err(NoCell::NotANumber), "{word}");
        }
    }
}
