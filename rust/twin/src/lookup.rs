//! Lookup.

use crate::fault::{planted, Fault};
use crate::register::opened;
use crate::{refused, refused_at, reply, too_short, Refusal};

/// Lookup: number, place, need, codes.
pub fn look_up(file: &[u8], column: usize, rows: &[u32], out: &mut [u64]) -> [u64; 4] {
    reply(looked_up(file, column, rows, out).map(|codes| vec![codes as u64]))
}

fn looked_up(file: &[u8], column: usize, rows: &[u32], out: &mut [u64]) -> Result<usize, Refusal> {
    let register = opened(file)?;
    if column >= register.columns.len() {
        return refused(12);
    }
    if let Some(place) = rows.iter().position(|&row| row as usize >= register.rows) {
        return refused_at(15, place);
    }
    if out.len() < rows.len() {
        return too_short(if planted(Fault::NeedOfTheRoom) { out.len() } else { rows.len() });
    }
    for (code, &row) in out.iter_mut().zip(rows) {
        *code = register.code(row as usize, column);
    }
    Ok(rows.len())
}
