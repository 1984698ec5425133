//! What is refused, with its number (document 01, the two lists; document 02, (a), (b), (d), (h) and (l)).

#[derive(Clone, Copy, PartialEq, Eq, Debug)]
pub enum Refusal {
    /// -2.
    Header,
    /// -4103.
    FileLength,
    /// -4106.
    ListingSize,
    /// -4119.
    ShortFile,
    /// -4107.
    Kind,
    /// -4108.
    PlainOperand,
    /// -4109.
    Target,
    /// -4101.
    MemoryLength,
    /// -4102.
    ByteOrder,
    /// -4111.
    Areas,
    /// -4112.
    Table,
    /// -4104.
    Unaligned,
    /// -1.
    OutsideMemory,
    /// -4110.
    Base,
    /// -4116.
    NoListing,
    /// -4113.
    ModuleSet,
    /// -4105.
    ShortOutput,
}

impl Refusal {
    pub fn number(self) -> i32 {
        match self {
            Refusal::Header => -2,
            Refusal::FileLength => -4103,
            Refusal::ListingSize => -4106,
            Refusal::ShortFile => -4119,
            Refusal::Kind => -4107,
            Refusal::PlainOperand => -4108,
            Refusal::Target => -4109,
            Refusal::MemoryLength => -4101,
            Refusal::ByteOrder => -4102,
            Refusal::Areas => -4111,
            Refusal::Table => -4112,
            Refusal::Unaligned => -4104,
            Refusal::OutsideMemory => -1,
            Refusal::Base => -4110,
            Refusal::NoListing => -4116,
            Refusal::ModuleSet => -4113,
            Refusal::ShortOutput => -4105,
        }
    }
}

/// Refuses with `refusal` unless `good`.
pub fn demand(good: bool, refusal: Refusal) -> Result<(), Refusal> {
    if good {
        Ok(())
    } else {
        Err(refusal)
    }
}
