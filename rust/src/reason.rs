//! The numbers of the refusals, by name.

/// Why a call was refused: the number of a [`Refusal`](crate::Refusal) by name.
///
/// | number | reason | what is wrong | what to do |
/// |---|---|---|---|
/// | 1 | `NoRegister` | the file has under 16 bytes, or does not end in `BSL1` | it is no register, or was cut short: fetch it again |
/// | 2 | `OtherVersion` | the file's version is not 1 | have it written in version 1 |
/// | 3 | `TooManyRows` | more than 1,048,576 rows | divide the register |
/// | 4 | `UnfitColumnCount` | no columns, or more than 32 | divide the columns |
/// | 5 | `DirectoryMisplaced` | the directory is not where the file's length puts it | bytes are missing or too many: fetch it again |
/// | 6 | `UnfitColumn` | a width is 0 or over 32, or a column's entry is unfit; place: the column | mend what writes that column |
/// | 7 | `BodyMisfit` | the slices do not fill the file up to its directory | bytes are missing or too many: fetch it again |
/// | 8 | `CodeTooLarge` | a code does not fit its column; place: its index in the codes | widen the column, or mend the code |
/// | 9 | `UnfitCodeCount` | the codes are not rows x columns | hand over a code for every cell |
/// | 10 | `OutputTooShort` | an output is too short; need: what it must hold | lend that much |
/// | 11 | `TooManyTests` | more than 16 tests | ask in two queries, and take the rows that both find |
/// | 12 | `NoSuchColumn` | no such column; place: in a scan the test, in a lookup 0 | count columns from 0 |
/// | 13 | `LiteralTooLarge` | a literal does not fit its column; place: the test | it can match no row, or every row: ask for less |
/// | 14 | `UnfitSegmentSize` | the segment size is not 8, 16, 32 or 64 | choose one of them |
/// | 15 | `NoSuchRow` | a row number is not below the rows; place: its index in the list | count rows from 0 |
/// | 16 | `UnfitBits` | the bits are not those of so many rows | hand over the bytes that a scan of this register left |
/// | 17 | `MalformedText` | the text is malformed; place: the line, from 0 | mend it; [`read`](crate::read) says what to look for |
#[derive(Clone, Copy, Debug, PartialEq, Eq, Hash)]
#[non_exhaustive]
pub enum Reason {
    /// 1: no register, or one that was cut short.
    NoRegister = 1,
    /// 2: a register of another version.
    OtherVersion,
    /// 3: more rows than a register has.
    TooManyRows,
    /// 4: no column, or more than a register has.
    UnfitColumnCount,
    /// 5: a directory that is not where it should be.
    DirectoryMisplaced,
    /// 6: a width that no column has, or an unfit entry of the directory.
    UnfitColumn,
    /// 7: slices that do not fill the file up to its directory.
    BodyMisfit,
    /// 8: a code that its column cannot hold.
    CodeTooLarge,
    /// 9: fewer or more codes than cells.
    UnfitCodeCount,
    /// 10: an output that is too short.
    OutputTooShort,
    /// 11: more tests than a query has.
    TooManyTests,
    /// 12: a column that the register does not have.
    NoSuchColumn,
    /// 13: a literal that its column cannot hold.
    LiteralTooLarge,
    /// 14: a segment size that there is not.
    UnfitSegmentSize,
    /// 15: a row that the register does not have.
    NoSuchRow,
    /// 16: bits of another number of rows.
    UnfitBits,
    /// 17: a text that is no query.
    MalformedText,
}

impl Reason {
    /// In the order of their numbers, from 1.
    const ALL: [Reason; 17] = [
        Reason::NoRegister,
        Reason::OtherVersion,
        Reason::TooManyRows,
        Reason::UnfitColumnCount,
        Reason::DirectoryMisplaced,
        Reason::UnfitColumn,
        Reason::BodyMisfit,
        Reason::CodeTooLarge,
        Reason::UnfitCodeCount,
        Reason::OutputTooShort,
        Reason::TooManyTests,
        Reason::NoSuchColumn,
        Reason::LiteralTooLarge,
        Reason::UnfitSegmentSize,
        Reason::NoSuchRow,
        Reason::UnfitBits,
        Reason::MalformedText,
    ];

    /// The reason of a number; none of one that is not 1 to 17.
    ///
    /// ```
    /// use rutksmeln::Reason;
    /// assert_eq!(Reason::of(12), Some(Reason::NoSuchColumn));
    /// assert_eq!(Reason::of(18), None);
    /// ```
    pub fn of(number: u64) -> Option<Reason> {
        Reason::ALL.into_iter().find(|&reason| reason.number() == number)
    }

    /// 1 to 17.
    pub fn number(self) -> u64 {
        self as u64
    }
}
