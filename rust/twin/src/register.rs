//! A register as its file has it, and opening.

use crate::fault::{planted, Fault};
use crate::{is_width, pad, refused, refused_at, reply, slices, Refusal, MOST_COLUMNS, MOST_ROWS};

const TRAILER: usize = 16;
const ENTRY: usize = 8;
const MARK: [u8; 4] = [0x42, 0x53, 0x4C, 0x31];

pub struct Column {
    pub width: u8,
    pub offset: usize,
}

pub struct Register<'a> {
    pub rows: usize,
    pub columns: Vec<Column>,
    file: &'a [u8],
}

/// Opening: number, place, need, rows, columns.
pub fn open(file: &[u8]) -> [u64; 5] {
    reply(opened(file).map(|register| vec![register.rows as u64, register.columns.len() as u64]))
}

pub(crate) fn opened(file: &[u8]) -> Result<Register<'_>, Refusal> {
    if file.len() < TRAILER || !file.ends_with(&MARK) {
        return refused(1);
    }
    let trailer = &file[file.len() - TRAILER..];
    let rows = least_first(&trailer[0..4]);
    let columns = least_first(&trailer[4..6]);
    let directory = least_first(&trailer[8..12]);
    if least_first(&trailer[6..8]) != 1 {
        return refused(2);
    }
    if rows > MOST_ROWS {
        return refused(3);
    }
    if columns == 0 || columns > MOST_COLUMNS {
        return refused(4);
    }
    if file.len() != directory + ENTRY * columns + TRAILER {
        return refused(5);
    }
    let columns = columns_of(&file[directory..directory + ENTRY * columns], rows)?;
    if body_of(&columns, rows) != directory {
        return refused(7);
    }
    Ok(Register { rows, columns, file })
}

/// The columns of a directory, when each begins where those before it end.
fn columns_of(directory: &[u8], rows: usize) -> Result<Vec<Column>, Refusal> {
    let mut columns = Vec::new();
    for (place, entry) in directory.chunks(ENTRY).enumerate() {
        let (width, offset) = (entry[0], least_first(&entry[4..8]));
        let begins = offset == body_of(&columns, rows) || planted(Fault::OffsetNotLookedAt);
        if !is_width(width) || entry[1..4] != [0, 0, 0] || !begins {
            return refused_at(6, place + usize::from(planted(Fault::PlaceOfTheNextColumn)));
        }
        columns.push(Column { width, offset });
    }
    Ok(columns)
}

/// Bytes of all slices of these columns.
fn body_of(columns: &[Column], rows: usize) -> usize {
    columns.iter().map(|column| slices(column.width) * rows).sum()
}

fn least_first(bytes: &[u8]) -> usize {
    bytes.iter().rev().fold(0, |sum, &byte| sum * 256 + usize::from(byte))
}

impl Register<'_> {
    /// The code of a row: its bytes joined, without the pad.
    pub fn code(&self, row: usize, column: usize) -> u64 {
        let Column { width, offset } = self.columns[column];
        let byte = |slice: usize| u64::from(self.file[offset + slice * self.rows + row]);
        let joined = (0..slices(width)).fold(0, |sum, slice| sum * 256 + byte(slice));
        let unit = 1u64 << pad(width);
        match planted(Fault::PadsRead) {
            true => joined.div_ceil(unit).min(crate::codes_of(width) - 1),
            false => joined / unit,
        }
    }
}
