//! The scan: tests applied to the codes of each row, and the counts by the words of their rule.

use std::cmp::Ordering;
use std::ops::Range;

use crate::fault::{planted, Fault};
use crate::read::{query_of, Comparison, Query, Test};
use crate::register::{opened, Register};
use crate::{codes_of, pad, refused, refused_at, reply, slices, too_short, Refusal};

/// A test of a query on a register: as asked, and the width of its column.
struct Asked {
    test: Test,
    width: u8,
}

/// A row: its code for each test.
type Row = Vec<u64>;

/// A slice of a segment that counts for a test.
struct Counted {
    test: usize,
    slice: usize,
    rows: Range<usize>,
}

/// The scan: number, place, need, matches, total, and a count for each of 16 slots. The refusals of the text come first.
pub fn scan(file: &[u8], text: &[u8], out: &mut [u8]) -> [u64; 21] {
    reply(scanned(file, text, out))
}

fn scanned(file: &[u8], text: &[u8], out: &mut [u8]) -> Result<Vec<u64>, Refusal> {
    let query = query_of(text)?;
    let register = opened(file)?;
    let asked = asked_of(&register, &query)?;
    let need = register.rows.div_ceil(8);
    if out.len() < need {
        return too_short(need);
    }
    let rows = rows_of(&register, &asked);
    let found: Vec<bool> = rows.iter().map(|row| is_found(row, &asked)).collect();
    out[..need].fill(if planted(Fault::BitsPastTheLastRow) { 255 } else { 0 });
    for (row, &is_found) in found.iter().enumerate() {
        let bit = 1 << (row % 8);
        out[row / 8] = out[row / 8] & !bit | if is_found { bit } else { 0 };
    }
    let mut counts = vec![0; asked.len()];
    for counted in all_counted(&rows, &asked, query.size as usize) {
        counts[counted.test] += match planted(Fault::ShortAsFull) {
            true => query.size,
            false => counted.rows.len() as u64,
        };
    }
    let mut values = vec![found.iter().filter(|&&found| found).count() as u64, counts.iter().sum()];
    values.extend(counts);
    Ok(values)
}

/// The bytes of a file that a scan counts, as ranges of its bytes; none for a scan that is refused for what it asks.
pub fn counted_bytes(file: &[u8], text: &[u8]) -> Vec<Range<usize>> {
    let (Ok(query), Ok(register)) = (query_of(text), opened(file)) else { return Vec::new() };
    let Ok(asked) = asked_of(&register, &query) else { return Vec::new() };
    let rows = rows_of(&register, &asked);
    let counted = all_counted(&rows, &asked, query.size as usize);
    let bytes = counted.into_iter().map(|counted| {
        let column = &register.columns[asked[counted.test].test.column as usize];
        let first = column.offset + (counted.slice - 1) * register.rows;
        first + counted.rows.start..first + counted.rows.end
    });
    bytes.collect()
}

/// The tests, when the register can be asked them.
fn asked_of(register: &Register, query: &Query) -> Result<Vec<Asked>, Refusal> {
    if ![8, 16, 32, 64].contains(&query.size) {
        return refused(14);
    }
    let mut asked = Vec::new();
    for (place, &test) in query.tests.iter().enumerate() {
        let Some(column) = register.columns.get(test.column as usize) else { return refused_at(12, place) };
        if test.literal >= codes_of(column.width) {
            return refused_at(13, place);
        }
        asked.push(Asked { test, width: column.width });
    }
    Ok(asked)
}

fn rows_of(register: &Register, asked: &[Asked]) -> Vec<Row> {
    let codes = |row| asked.iter().map(|asked| register.code(row, asked.test.column as usize)).collect();
    (0..register.rows).map(codes).collect()
}

/// Every slice of every segment, for every test, that counts: the slice is at most the test's last, and some row of the segment is
/// equal on the test by the bytes before it and not ruled out by them.
fn all_counted(rows: &[Row], asked: &[Asked], size: usize) -> Vec<Counted> {
    let mut all = Vec::new();
    for (segment, members) in rows.chunks(size).enumerate() {
        let first = segment * size;
        for slice in 1..=4 {
            let mut kept: Vec<&Row> = members.iter().filter(|row| !is_ruled_out(row, asked, slice - 1)).collect();
            for (test, one) in asked.iter().enumerate() {
                let equal = |row: &&Row| standing(one, row[test], slice - 1) == Ordering::Equal;
                if slice <= slices(one.width) && kept.iter().any(equal) {
                    all.push(Counted { test, slice, rows: first..first + members.len() });
                }
                if planted(Fault::AfterEachTest) {
                    kept.retain(|row| !rules_out(one, row[test], slice));
                }
            }
        }
    }
    all
}

/// How a code stands to the literal by their first bytes, as many as are taken; pads are cleared.
fn standing(asked: &Asked, code: u64, taken: usize) -> Ordering {
    let all = slices(asked.width);
    let left = 256u64.pow((all - taken.min(all)) as u32);
    let unit = 1u64 << pad(asked.width);
    let (ours, theirs) = (code * unit / left, asked.test.literal * unit / left);
    match planted(Fault::SignedBytes) {
        true => signed(ours).cmp(&signed(theirs)),
        false => ours.cmp(&theirs),
    }
}

/// The bytes of a number, as signed ones.
fn signed(number: u64) -> Vec<i8> {
    number.to_be_bytes().iter().map(|&byte| byte as i8).collect()
}

fn rules_out(asked: &Asked, code: u64, taken: usize) -> bool {
    let standing = standing(asked, code, taken);
    match asked.test.comparison {
        Comparison::Less | Comparison::AtMost => standing == Ordering::Greater,
        Comparison::More | Comparison::AtLeast => standing == Ordering::Less,
        Comparison::Equal => standing != Ordering::Equal,
        Comparison::Differs => false,
    }
}

fn is_ruled_out(row: &Row, asked: &[Asked], taken: usize) -> bool {
    asked.iter().zip(row).any(|(one, &code)| rules_out(one, code, taken))
}

/// Whether the codes of a row meet every test.
fn is_found(row: &Row, asked: &[Asked]) -> bool {
    asked.iter().zip(row).all(|(one, &code)| meets(one, code))
}

fn meets(asked: &Asked, code: u64) -> bool {
    let literal = asked.test.literal;
    if planted(Fault::SignedBytes) {
        return meets_by(asked.test.comparison, standing(asked, code, 4));
    }
    match asked.test.comparison {
        Comparison::Less => code < literal,
        Comparison::AtMost => code <= literal,
        Comparison::More => code > literal,
        Comparison::AtLeast => code >= literal,
        Comparison::Equal => code == literal,
        Comparison::Differs => code != literal,
    }
}

/// Only for the planted fault: the comparison read off a standing.
fn meets_by(comparison: Comparison, standing: Ordering) -> bool {
    match comparison {
        Comparison::Less => standing.is_lt(),
        Comparison::AtMost => standing.is_le(),
        Comparison::More => standing.is_gt(),
        Comparison::AtLeast => standing.is_ge(),
        Comparison::Equal => standing.is_eq(),
        Comparison::Differs => standing.is_ne(),
    }
}
