//! Rutksmeln from Rust: safe calls of a library that is proved to answer as its definitions say, for every file, query, number and
//! buffer.
//!
//! A register holds a row for each pickup and columns of small codes. A scan says which rows meet every test of a query, and how many
//! bytes of each column that took.
//!
//! ```
//! use rutksmeln::{owned, Refusal};
//!
//! fn lots_from_five_on() -> Result<Vec<u64>, Refusal> {
//!     let file = owned::write(3, &[11], &[5, 1024, 3])?;
//!     let rows = owned::find(&file, &"segment 8\n0 >= 5\n".parse()?)?;
//!     assert_eq!(rows, [0, 1]);
//!     owned::look_up(&file, 0, &rows)
//! }
//!
//! assert_eq!(lots_from_five_on(), Ok(vec![5, 1024]));
//! ```
//!
//! Each call here takes slices and answers `Ok`, or `Err` with a [`Refusal`]; [`Reason`] has the table of what is refused. A refused call
//! has changed nothing that it was lent; an accepted one writes only the elements that its answer speaks of. The functions of [`owned`]
//! lend a vector of the right length.

#![warn(missing_docs)]

pub mod owned;
mod query;
pub mod raw;
mod reason;
mod refusal;

pub use query::{Comparison, Query, Test, COMPARISONS};
pub use reason::Reason;
pub use refusal::{Call, Refusal};

/// What a register holds, as its file says.
#[derive(Clone, Copy, Debug, PartialEq, Eq, Hash)]
pub struct Shape {
    /// 0 to 1,048,576.
    pub rows: usize,
    /// 1 to 32.
    pub columns: usize,
}

/// What a scan found, and what it took.
#[derive(Clone, Copy, Debug, PartialEq, Eq, Hash)]
pub struct Scanned {
    /// How many rows meet every test.
    pub matches: usize,
    /// The sum of the counts.
    pub total: u64,
    /// The bytes counted for each test; 0 behind the last.
    pub counts: [u64; 16],
}

/// Opens a register. Refusals: 1 to 7.
///
/// ```
/// assert_eq!(rutksmeln::open(b"no register").unwrap_err().number, 1);
/// ```
pub fn open(file: &[u8]) -> Result<Shape, Refusal> {
    let mut reply = [0; raw::OPEN_REPLY];
    // SAFETY: the slice is good for its length and the reply for OPEN_REPLY elements.
    unsafe { raw::bsl_open(file.as_ptr(), file.len(), reply.as_mut_ptr()) };
    judged(Call::Open, &reply)?;
    Ok(Shape { rows: reply[3] as usize, columns: reply[4] as usize })
}

/// Tells the bits of each column of a register, and answers how many columns. 32 elements are always enough.
/// Refusals: those of [`open`], 10.
///
/// ```
/// let file = rutksmeln::owned::write(1, &[11, 3], &[2047, 7]).unwrap();
/// let mut widths = [0; 32];
/// assert_eq!(rutksmeln::widths(&file, &mut widths), Ok(2));
/// assert_eq!(widths[..2], [11, 3]);
/// ```
pub fn widths(file: &[u8], out: &mut [u8]) -> Result<usize, Refusal> {
    let mut reply = [0; raw::WIDTHS_REPLY];
    // SAFETY: each slice is good for its length, the reply for WIDTHS_REPLY elements, and what is written is borrowed alone.
    unsafe { raw::bsl_widths(file.as_ptr(), file.len(), out.as_mut_ptr(), out.len(), reply.as_mut_ptr()) };
    judged(Call::Widths, &reply).map(|()| reply[3] as usize)
}

/// Writes a register into `out`, and answers its bytes. `codes` go row after row. Refusals: 3, 4, 6, 9, 8, 10.
///
/// ```
/// let mut file = [0; 30];
/// assert_eq!(rutksmeln::write(2, &[11], &[5, 1024], &mut file), Ok(28));
/// assert_eq!(file[..4], [0x00, 0x80, 0xA0, 0x00]);
/// ```
pub fn write(rows: usize, widths: &[u8], codes: &[u64], out: &mut [u8]) -> Result<usize, Refusal> {
    let mut reply = [0; raw::WRITE_REPLY];
    // SAFETY: each slice is good for its length, the reply for WRITE_REPLY elements, and what is written is borrowed alone.
    unsafe {
        raw::bsl_write(rows, widths.as_ptr(), widths.len(), codes.as_ptr(), codes.len(), out.as_mut_ptr(), out.len(), reply.as_mut_ptr())
    };
    judged(Call::Write, &reply).map(|()| reply[3] as usize)
}

/// Reads the text of a query. Refusals: 17, 11. Columns and segment sizes are for the scan to judge.
///
/// Line 0 is `segment` and a size, each further line a column, a sign (`<`, `<=`, `>`, `>=`, `=`, `!=`) and a literal, with one space
/// between and a line feed behind each line. Numbers are decimals below 2^32. A text is malformed, also where it looks right, by lines
/// that end in CR LF, a byte order mark, a missing last line feed, an empty line, leading zeros, or a number of 2^32 or more.
///
/// ```
/// assert_eq!(rutksmeln::read(b"segment 8\n0 << 5\n").unwrap_err().place, 1);
/// ```
pub fn read(text: &[u8]) -> Result<Query, Refusal> {
    let mut reply = [0; raw::READ_REPLY];
    // SAFETY: the slice is good for its length and the reply for READ_REPLY elements.
    unsafe { raw::bsl_read(text.as_ptr(), text.len(), reply.as_mut_ptr()) };
    judged(Call::Read, &reply)?;
    let slots = reply[5..].chunks_exact(3).take(reply[4] as usize);
    let tests = slots.map(|slot| Test { column: slot[0], comparison: COMPARISONS[slot[1] as usize], literal: slot[2] });
    Ok(Query { size: reply[3], tests: tests.collect() })
}

/// Scans a register for the rows that meet every test of the query in `text`. In `out`, row r is the bit of value 2^(r mod 8) in byte
/// r / 8. Refusals: 17, 11, those of [`open`], 14, for each test in turn 12 and 13, and 10.
///
/// ```
/// let file = rutksmeln::owned::write(3, &[11], &[5, 1024, 3]).unwrap();
/// let mut bits = [0];
/// assert_eq!(rutksmeln::scan(&file, b"segment 8\n0 >= 5\n", &mut bits).unwrap().matches, 2);
/// assert_eq!(bits, [0b011]);
/// ```
pub fn scan(file: &[u8], text: &[u8], out: &mut [u8]) -> Result<Scanned, Refusal> {
    let mut reply = [0; raw::SCAN_REPLY];
    // SAFETY: each slice is good for its length, the reply for SCAN_REPLY elements, and what is written is borrowed alone.
    unsafe { raw::bsl_scan(file.as_ptr(), file.len(), text.as_ptr(), text.len(), out.as_mut_ptr(), out.len(), reply.as_mut_ptr()) };
    judged(Call::Scan, &reply)?;
    let mut counts = [0; 16];
    counts.copy_from_slice(&reply[5..]);
    Ok(Scanned { matches: reply[3] as usize, total: reply[4], counts })
}

/// Scans as [`scan`] does, by the text that the query prints: test t is its line t + 1. A size, column or literal of 2^32 or more is
/// therefore refused by 17.
///
/// ```
/// use rutksmeln::{Comparison, Query, Test};
/// let file = rutksmeln::owned::write(3, &[11], &[5, 1024, 3]).unwrap();
/// let query = Query { size: 8, tests: vec![Test { column: 0, comparison: Comparison::Less, literal: 5 }] };
/// let mut bits = [0];
/// assert_eq!(rutksmeln::scan_query(&file, &query, &mut bits).unwrap().matches, 1);
/// assert_eq!(bits, [0b100]);
/// ```
pub fn scan_query(file: &[u8], query: &Query, out: &mut [u8]) -> Result<Scanned, Refusal> {
    scan(file, query.to_string().as_bytes(), out)
}

/// Lists the rows whose bit is set, rising, and answers how many. Refusals: 3, 16, 10.
///
/// ```
/// let mut rows = [0; 3];
/// assert_eq!(rutksmeln::list(10, &[0xA1, 0x00], &mut rows), Ok(3));
/// assert_eq!(rows, [0, 5, 7]);
/// ```
pub fn list(rows: usize, bits: &[u8], out: &mut [u32]) -> Result<usize, Refusal> {
    let mut reply = [0; raw::LIST_REPLY];
    // SAFETY: each slice is good for its length, the reply for LIST_REPLY elements, and what is written is borrowed alone.
    unsafe { raw::bsl_list(rows, bits.as_ptr(), bits.len(), out.as_mut_ptr(), out.len(), reply.as_mut_ptr()) };
    judged(Call::List, &reply).map(|()| reply[3] as usize)
}

/// Looks up a column's code in each listed row, and answers how many. Rows may come in any order, and more than once.
/// Refusals: those of [`open`], 12, 15, 10.
///
/// ```
/// let file = rutksmeln::owned::write(3, &[11], &[5, 1024, 3]).unwrap();
/// let mut codes = [0; 2];
/// assert_eq!(rutksmeln::look_up(&file, 0, &[2, 0], &mut codes), Ok(2));
/// assert_eq!(codes, [3, 5]);
/// ```
pub fn look_up(file: &[u8], column: usize, rows: &[u32], out: &mut [u64]) -> Result<usize, Refusal> {
    let mut reply = [0; raw::LOOKUP_REPLY];
    // SAFETY: each slice is good for its length, the reply for LOOKUP_REPLY elements, and what is written is borrowed alone.
    unsafe {
        raw::bsl_lookup(file.as_ptr(), file.len(), column, rows.as_ptr(), rows.len(), out.as_mut_ptr(), out.len(), reply.as_mut_ptr())
    };
    judged(Call::LookUp, &reply).map(|()| reply[3] as usize)
}

/// Every reply begins with a refusal's number, place and need; the number is 0 in an accepted one.
fn judged(call: Call, reply: &[u64]) -> Result<(), Refusal> {
    match reply[0] {
        0 => Ok(()),
        number => Err(Refusal { call, number, place: reply[1], need: reply[2] }),
    }
}
