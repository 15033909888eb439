//! The numbered answers of the table "Turned back, by place". Row 16 is gone (document 02, L5).

/// Why a call was turned back. The discriminant is the row's number.
#[derive(Clone, Copy, Debug, PartialEq, Eq)]
pub enum Refusal {
    UnderHeader = 1,
    UnknownLayout = 2,
    SizesOutOfRange = 3,
    BufferShort = 4,
    JournalBounds = 5,
    BadRecord = 6,
    BadTables = 7,
    BrokenState = 8,
    OperationPending = 9,
    NothingPending = 10,
    BadArgument = 11,
    WriterOpen = 12,
    WriterClosed = 13,
    LineHeld = 14,
    NoFreeSlot = 15,
    PageWithoutSlot = 17,
    PageHeld = 18,
    JournalFull = 19,
    /// Document 02, "Meters on the store".
    UnknownEvent = 20,
    AmountOutOfRange = 21,
    /// Document 02, "Make a slot free".
    NoSlotToFree = 22,
    /// Document 02, "Prepare, then confirm".
    TransactionPrepared = 23,
    WriterNotPrepared = 24,
    /// Document 02, "A venue's own moduli".
    BadTableLine = 25,
    ModulusOutOfRange = 26,
    MeterNotBelow = 27,
    /// Document 02, "Rounds wider than the slots".
    NoWideRounds = 28,
    OtherOpen = 29,
    EntriesUsed = 30,
}

impl Refusal {
    pub fn number(self) -> u8 {
        self as u8
    }
}

/// A call's answer: what it gives when taken, or the first row that applies.
pub type Answer<T> = Result<T, Refusal>;

/// One row of the table. Rows are written one below the other, each with `?`, so the first that applies wins.
pub fn row(refusal: Refusal, applies: bool) -> Answer<()> {
    if applies {
        Err(refusal)
    } else {
        Ok(())
    }
}
