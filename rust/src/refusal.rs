//! Why a call was refused.

use std::error::Error;
use std::fmt;

use crate::Reason;

/// The calls of the library.
#[derive(Clone, Copy, Debug, PartialEq, Eq, Hash)]
#[non_exhaustive]
pub enum Call {
    /// [`open`](crate::open)
    Open,
    /// [`widths`](crate::widths)
    Widths,
    /// [`write`](crate::write)
    Write,
    /// [`read`](crate::read)
    Read,
    /// [`scan`](crate::scan)
    Scan,
    /// [`list`](crate::list)
    List,
    /// [`look_up`](crate::look_up)
    LookUp,
}

impl fmt::Display for Call {
    fn fmt(&self, to: &mut fmt::Formatter<'_>) -> fmt::Result {
        to.pad(match self {
            Call::Open => "open",
            Call::Widths => "widths",
            Call::Write => "write",
            Call::Read => "read",
            Call::Scan => "scan",
            Call::List => "list",
            Call::LookUp => "lookup",
        })
    }
}

/// A refusal: the call, its number, and where a number has them, a place and a need. Nothing lent to the call has changed.
/// [`Reason`] has the table of the numbers, with what to do about each.
///
/// ```
/// use rutksmeln::{Call, Reason};
/// let refusal = rutksmeln::list(10, &[0xFF, 0x03], &mut [0; 4]).unwrap_err();
/// assert_eq!((refusal.call, refusal.number, refusal.need), (Call::List, 10, 10));
/// assert_eq!(refusal.reason(), Some(Reason::OutputTooShort));
/// assert_eq!(refusal.to_string(), "list refused 10 at 0: The output is too short: lend 10 elements.");
/// ```
#[derive(Clone, Copy, Debug, PartialEq, Eq, Hash)]
pub struct Refusal {
    /// The call that was refused.
    pub call: Call,
    /// 1 to 17; [`Reason`] names them.
    pub number: u64,
    /// A column, a test, a line or an index, from 0, as the number has it; else 0.
    pub place: u64,
    /// The elements that the output must have, for number 10; else 0.
    pub need: u64,
}

impl Refusal {
    /// The number by name. Every refusal of a call has one; a number that is not 1 to 17 has none.
    pub fn reason(&self) -> Option<Reason> {
        Reason::of(self.number)
    }

    /// What is wrong and what to do about it, in a sentence or two.
    pub fn sentence(&self) -> String {
        let Refusal { call, number, place, need } = *self;
        let Some(reason) = self.reason() else { return format!("Number {number} is none of this library's.") };
        match reason {
            Reason::NoRegister => {
                "The file is too short or does not end in BSL1: it is no register, or was cut off. Fetch it again.".into()
            }
            Reason::OtherVersion => "The register is of another version: have it written in version 1.".into(),
            Reason::TooManyRows => "There are more than 1,048,576 rows: split the register.".into(),
            Reason::UnfitColumnCount => "There is no column, or there are more than 32: split the columns.".into(),
            Reason::DirectoryMisplaced => {
                "The directory is not where the file's length puts it: bytes were lost or added. Fetch the file again.".into()
            }
            Reason::UnfitColumn if call == Call::Write => {
                format!("Column {place}, from 0, has a width outside 1 to 32: correct the width.")
            }
            Reason::UnfitColumn => {
                format!("Column {place}, from 0, has a width outside 1 to 32, or an unfit entry: correct the program that writes it.")
            }
            Reason::BodyMisfit => {
                "The slices do not end where the directory starts: bytes were lost or added. Fetch the file again.".into()
            }
            Reason::CodeTooLarge => format!("Code {place}, from 0, is too large for its column: correct the code or widen the column."),
            Reason::UnfitCodeCount => "The codes are not rows times columns: hand over one for every cell.".into(),
            Reason::OutputTooShort => format!("The output is too short: lend {need} elements."),
            Reason::TooManyTests => "There are more than 16 tests: ask in two queries and take the rows that both find.".into(),
            Reason::NoSuchColumn if call == Call::LookUp => "The register does not have this column: columns are numbered from 0.".into(),
            Reason::NoSuchColumn => {
                format!("Test {place}, from 0, is of a column that the register does not have: columns are numbered from 0.")
            }
            Reason::LiteralTooLarge => {
                format!("The literal of test {place}, from 0, is too large for its column: ask for a code that the column can hold.")
            }
            Reason::UnfitSegmentSize => "The segment size is not allowed: choose 8, 16, 32 or 64.".into(),
            Reason::NoSuchRow => format!("The row at index {place} of the list is not in the register: rows are numbered from 0."),
            Reason::UnfitBits => {
                "The bits do not belong to so many rows: hand over the bytes of a scan, and the rows of its register.".into()
            }
            Reason::MalformedText => format!(
                "Line {place} of the query, from 0, is malformed: look for CR LF at its end, a byte order mark, a missing last line \
                 feed, an empty line, a second space, leading zeros, or a number of 2^32 or more."
            ),
        }
    }
}

impl fmt::Display for Refusal {
    fn fmt(&self, to: &mut fmt::Formatter<'_>) -> fmt::Result {
        write!(to, "{} refused {} at {}: {}", self.call, self.number, self.place, self.sentence())
    }
}

impl Error for Refusal {}
