//! A digest of 64 bits (FNV-1a), against mix-ups alone: whoever wants to can find other bytes with the
//! same one.

pub struct Digest(u64);

impl Digest {
    pub fn new() -> Self {
        Digest(0xCBF2_9CE4_8422_2325)
    }

    pub fn bytes(&mut self, bytes: &[u8]) {
        for byte in bytes {
            self.0 = (self.0 ^ u64::from(*byte)).wrapping_mul(0x100_0000_01B3);
        }
    }

    /// A number's eight bytes, least first.
    pub fn number(&mut self, number: u64) {
        self.bytes(&number.to_le_bytes());
    }

    pub fn value(&self) -> u64 {
        self.0
    }
}

#[cfg(test)]
mod tests {
    use super::*;

    #[test]
    fn values_that_its_authors_give() {
        let rows: [(&[u8], u64); 3] = [
            (b"", 0xCBF2_9CE4_8422_2325),
            (b"a", 0xAF63_DC4C_8601_EC8C),
            (b"foobar", 0x8594_4171_F739_67E8),
        ];
        for (bytes, value) in rows {
            let mut digest = Digest::new();
            digest.bytes(bytes);
            assert_eq!(digest.value(), value);
        }
    }
}
