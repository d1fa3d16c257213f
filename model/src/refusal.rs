//! The refusal numbers of the rules' table.

/// Why a call was refused; the discriminant is the rules' number.
#[derive(Clone, Copy, Debug, PartialEq, Eq)]
#[repr(u8)]
pub enum Refusal {
    /// Byte without top bits 01.
    NotDataByte = 1,
    /// Fed or ended while a frame waits.
    FrameWaits = 2,
    /// Fed or ended after end.
    AfterEnd = 3,
    /// Taking when no frame waits.
    NoFrameWaits = 4,
    /// Frame, header, reader state, carried bit or report outside its widths.
    OutsideWidths = 5,
    /// Frame is of another type.
    AnotherType = 6,
    /// Z count 6000 to 8191.
    ZCount = 7,
    /// N doesn't fit the type.
    NDoesNotFit = 8,
    /// Entry number not below the count.
    NoSuchEntry = 9,
    /// Record field outside its range.
    OutsideRange = 10,
    /// Forbidden character.
    ForbiddenCharacter = 11,
    /// No entry, or too many; too large an N wanted of a null frame.
    EntryCount = 12,
    /// Lent buffer too short.
    BufferTooShort = 13,
    /// The bytes do not begin with the journal mark.
    NoJournalMark = 14,
    /// Journal record cut short.
    RecordCutShort = 15,
    /// N of a journal record over 31 or not that of word 2, or its preamble wrong.
    JournalHeader = 16,
    /// A word kept in a journal fails parity, or its carried bits do not repeat the
    /// word before.
    BrokenWord = 17,
    /// A new key with all rows of a report in use.
    NoRow = 18,
    /// A count of a report that would pass 4,294,967,295.
    CountPasses = 19,
    /// A type outside the small-beacon profile.
    OutsideProfile = 20,
    /// Too many satellites for the profile.
    TooManySatellites = 21,
    /// A satellite twice, where the profile allows it once.
    SatelliteTwice = 22,
    /// A system without this layout.
    OtherSystem = 23,
}

impl Refusal {
    /// The number in the rules' table.
    pub fn number(self) -> u8 {
        self as u8
    }
}

/// What a call that may be refused answers.
pub type Answer<T> = Result<T, Refusal>;

/// Refuses when the condition holds.
pub fn refuse_if(condition: bool, refusal: Refusal) -> Answer<()> {
    if condition {
        Err(refusal)
    } else {
        Ok(())
    }
}
