//! Writing.

use crate::fault::{planted, Fault};
use crate::{codes_of, is_width, pad, refused, refused_at, reply, slices, too_short, Refusal, MOST_COLUMNS, MOST_ROWS};

/// Writing: number, place, need, bytes.
pub fn write(rows: usize, widths: &[u8], codes: &[u64], out: &mut [u8]) -> [u64; 4] {
    reply(written(rows, widths, codes, out).map(|bytes| vec![bytes as u64]))
}

fn written(rows: usize, widths: &[u8], codes: &[u64], out: &mut [u8]) -> Result<usize, Refusal> {
    if rows > MOST_ROWS {
        return refused(3);
    }
    if widths.is_empty() || widths.len() > MOST_COLUMNS {
        return refused(4);
    }
    if let Some(place) = widths.iter().position(|&width| !is_width(width)) {
        return refused_at(6, place);
    }
    if codes.len() != rows * widths.len() {
        return refused(9);
    }
    if let Some(place) = (0..codes.len()).find(|&i| codes[i] >= codes_of(widths[i % widths.len()])) {
        return refused_at(8, place);
    }
    let file = file_of(rows, widths, codes);
    if out.len() < file.len() {
        if planted(Fault::ShortOutputWrittenInto) {
            out.copy_from_slice(&file[..out.len()]);
        }
        return too_short(file.len());
    }
    out[..file.len()].copy_from_slice(&file);
    Ok(file.len())
}

/// Body, directory and trailer of a register whose rows, widths and codes are fit.
fn file_of(rows: usize, widths: &[u8], codes: &[u64]) -> Vec<u8> {
    let mut body = Vec::new();
    let mut directory = Vec::new();
    for (column, &width) in widths.iter().enumerate() {
        directory.extend([width, 0, 0, 0]);
        directory.extend((body.len() as u32).to_le_bytes());
        for slice in 0..slices(width) {
            let column_codes = codes.chunks(widths.len()).map(|row| row[column]);
            body.extend(column_codes.map(|code| byte_of(width, code, slice)));
        }
    }
    let length = body.len() as u32;
    body.extend(directory);
    body.extend((rows as u32).to_le_bytes());
    body.extend((widths.len() as u16).to_le_bytes());
    body.extend(1u16.to_le_bytes());
    body.extend(length.to_le_bytes());
    body.extend([0x42, 0x53, 0x4C, 0x31]);
    body
}

/// A byte of the stored number, the most significant being slice 0.
fn byte_of(width: u8, code: u64, slice: usize) -> u8 {
    let unit = 1u64 << pad(width);
    let stored = code * unit + if planted(Fault::PadsOfOnes) { unit - 1 } else { 0 };
    (stored / 256u64.pow((slices(width) - 1 - slice) as u32) % 256) as u8
}
