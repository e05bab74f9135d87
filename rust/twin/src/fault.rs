//! Faults that can be planted in the twin, to show that a comparison with it can fail. None is planted unless asked for.

use std::sync::atomic::{AtomicUsize, Ordering};

/// A mistake that somebody might make.
#[derive(Clone, Copy, Debug, PartialEq, Eq)]
#[repr(usize)]
pub enum Fault {
    /// Opening: the offset of a column is not looked at.
    OffsetNotLookedAt = 1,
    /// Opening: the place of an unfit column is the next.
    PlaceOfTheNextColumn,
    /// Widths: those of the last two columns are exchanged.
    NeighboursExchanged,
    /// Widths: room for all but the last is let through.
    OneTooFewAccepted,
    /// Widths: the need is 0.
    NeedLeftOut,
    /// Widths: what lies behind them is cleared.
    RestCleared,
    /// Writing: the pads are ones.
    PadsOfOnes,
    /// Writing: a refused call has written what fits.
    ShortOutputWrittenInto,
    /// Reading: decimals may begin with a zero.
    LeadingZero,
    /// Reading: the last line needs no line feed.
    LineFeedLeftOut,
    /// Scan: the bytes are compared as signed ones.
    SignedBytes,
    /// Scan: rows are ruled out after each test, not after each slice.
    AfterEachTest,
    /// Scan: a short last segment counts as a full one.
    ShortAsFull,
    /// Scan: the bits past the last row are set.
    BitsPastTheLastRow,
    /// Scan and lookup: a pad that is not 0 makes the code greater.
    PadsRead,
    /// List: one element more than listed is written, where there is room.
    OneTooMany,
    /// List: a bit past the last row is let through.
    BitPastTheEnd,
    /// Lookup: the need is the room there is.
    NeedOfTheRoom,
}

impl Fault {
    /// All of them.
    pub const ALL: [Fault; 18] = [
        Fault::OffsetNotLookedAt,
        Fault::PlaceOfTheNextColumn,
        Fault::NeighboursExchanged,
        Fault::OneTooFewAccepted,
        Fault::NeedLeftOut,
        Fault::RestCleared,
        Fault::PadsOfOnes,
        Fault::ShortOutputWrittenInto,
        Fault::LeadingZero,
        Fault::LineFeedLeftOut,
        Fault::SignedBytes,
        Fault::AfterEachTest,
        Fault::ShortAsFull,
        Fault::BitsPastTheLastRow,
        Fault::PadsRead,
        Fault::OneTooMany,
        Fault::BitPastTheEnd,
        Fault::NeedOfTheRoom,
    ];
}

static PLANTED: AtomicUsize = AtomicUsize::new(0);

/// From now on the twin makes this mistake, or none.
pub fn plant(fault: Option<Fault>) {
    PLANTED.store(fault.map_or(0, |fault| fault as usize), Ordering::Relaxed);
}

pub(crate) fn planted(fault: Fault) -> bool {
    PLANTED.load(Ordering::Relaxed) == fault as usize
}
