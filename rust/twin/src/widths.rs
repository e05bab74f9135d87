//! The widths of the columns.

use crate::fault::{planted, Fault};
use crate::register::opened;
use crate::{reply, too_short, Refusal};

/// The widths: number, place, need, columns.
pub fn widths(file: &[u8], out: &mut [u8]) -> [u64; 4] {
    reply(told(file, out).map(|columns| vec![columns as u64]))
}

fn told(file: &[u8], out: &mut [u8]) -> Result<usize, Refusal> {
    let mut widths: Vec<u8> = opened(file)?.columns.iter().map(|column| column.width).collect();
    let columns = widths.len();
    if planted(Fault::NeighboursExchanged) && columns > 1 {
        widths.swap(columns - 2, columns - 1);
    }
    if planted(Fault::OneTooFewAccepted) && out.len() + 1 == columns {
        widths.pop();
    }
    if out.len() < widths.len() {
        return too_short(if planted(Fault::NeedLeftOut) { 0 } else { columns });
    }
    for (left, width) in out.iter_mut().zip(&widths) {
        *left = *width;
    }
    if planted(Fault::RestCleared) {
        out[widths.len()..].fill(0);
    }
    Ok(columns)
}
