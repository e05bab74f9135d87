//! The row list.

use crate::fault::{planted, Fault};
use crate::{refused, reply, too_short, Refusal, MOST_ROWS};

/// The list: number, place, need, rows listed.
pub fn list(rows: usize, bits: &[u8], out: &mut [u32]) -> [u64; 4] {
    reply(listed(rows, bits, out).map(|listed| vec![listed as u64]))
}

fn listed(rows: usize, bits: &[u8], out: &mut [u32]) -> Result<usize, Refusal> {
    if rows > MOST_ROWS {
        return refused(3);
    }
    let is_set = |row: &usize| bits[row / 8] / 2u8.pow((row % 8) as u32) % 2 == 1;
    if bits.len() != rows.div_ceil(8) {
        return refused(16);
    }
    if (rows..8 * bits.len()).any(|row| is_set(&row)) && !planted(Fault::BitPastTheEnd) {
        return refused(16);
    }
    let found: Vec<u32> = (0..rows).filter(is_set).map(|row| row as u32).collect();
    if out.len() < found.len() {
        return too_short(found.len());
    }
    out[..found.len()].copy_from_slice(&found);
    if planted(Fault::OneTooMany) && out.len() > found.len() {
        out[found.len()] = 0;
    }
    Ok(found.len())
}
