//! The calls that fill a buffer, with a vector of the right length as their answer.
//!
//! Each asks with no room first. The refusal 10 then says how much is needed.

use crate::{Query, Reason, Refusal, Scanned};

/// The bits of each column; see [`crate::widths`].
///
/// ```
/// use rutksmeln::owned;
/// let file = owned::write(1, &[11, 3], &[2047, 7]).unwrap();
/// assert_eq!(owned::widths(&file), Ok(vec![11, 3]));
/// ```
pub fn widths(file: &[u8]) -> Result<Vec<u8>, Refusal> {
    filled(|out| crate::widths(file, out)).map(|(widths, _)| widths)
}

/// Writes a register; see [`crate::write`].
pub fn write(rows: usize, widths: &[u8], codes: &[u64]) -> Result<Vec<u8>, Refusal> {
    filled(|out| crate::write(rows, widths, codes, out)).map(|(file, _)| file)
}

/// Scans a register, and answers the bits of the rows beside the counts; see [`crate::scan`].
pub fn scan(file: &[u8], text: &[u8]) -> Result<(Vec<u8>, Scanned), Refusal> {
    filled(|out| crate::scan(file, text, out))
}

/// Scans a register by a query that was read or made; see [`crate::scan_query`].
///
/// ```
/// use rutksmeln::owned;
/// let file = owned::write(3, &[11], &[5, 1024, 3]).unwrap();
/// let (bits, scanned) = owned::scan_query(&file, &"segment 8\n0 >= 5\n".parse().unwrap()).unwrap();
/// assert_eq!((bits, scanned.matches), (vec![0b011], 2));
/// ```
pub fn scan_query(file: &[u8], query: &Query) -> Result<(Vec<u8>, Scanned), Refusal> {
    scan(file, query.to_string().as_bytes())
}

/// The rows that meet every test of a query, rising: a scan and its list in one. Refusals: those of [`crate::scan_query`], without 10.
///
/// ```
/// use rutksmeln::owned;
/// let file = owned::write(3, &[11], &[5, 1024, 3]).unwrap();
/// assert_eq!(owned::find(&file, &"segment 8\n0 >= 5\n".parse().unwrap()), Ok(vec![0, 1]));
/// ```
pub fn find(file: &[u8], query: &Query) -> Result<Vec<u32>, Refusal> {
    let (bits, scanned) = scan_query(file, query)?;
    let mut rows = vec![0; scanned.matches];
    crate::list(crate::open(file)?.rows, &bits, &mut rows)?;
    Ok(rows)
}

/// Lists the rows whose bit is set; see [`crate::list`].
pub fn list(rows: usize, bits: &[u8]) -> Result<Vec<u32>, Refusal> {
    filled(|out| crate::list(rows, bits, out)).map(|(listed, _)| listed)
}

/// Looks up a column's codes; see [`crate::look_up`].
pub fn look_up(file: &[u8], column: usize, rows: &[u32]) -> Result<Vec<u64>, Refusal> {
    filled(|out| crate::look_up(file, column, rows, out)).map(|(codes, _)| codes)
}

/// What a call answers and writes, once it has been lent as much as it needs.
fn filled<T: Clone + Default, A>(call: impl Fn(&mut [T]) -> Result<A, Refusal>) -> Result<(Vec<T>, A), Refusal> {
    let need = match call(&mut []) {
        Ok(answer) => return Ok((Vec::new(), answer)),
        Err(refusal) if refusal.reason() == Some(Reason::OutputTooShort) => refusal.need as usize,
        Err(refusal) => return Err(refusal),
    };
    let mut out = vec![T::default(); need];
    call(&mut out).map(|answer| (out, answer))
}
