//! The seven calls a second time, to compare the proved library with. They share nothing with it but the rules: codes are joined row by
//! row, tests are applied to codes, and a slice counts by the words of its rule. Slow and plain on purpose.
//!
//! Every call answers the reply as the library's numbers are laid out, and writes into the buffers it is lent.

mod fault;
mod list;
mod lookup;
mod read;
mod register;
mod scan;
mod widths;
mod write;

pub use fault::{plant, Fault};
pub use list::list;
pub use lookup::look_up;
pub use read::read;
pub use register::open;
pub use scan::{counted_bytes, scan};
pub use widths::widths;
pub use write::write;

/// A refusal: number, place, need.
#[derive(Clone, Copy, Debug, PartialEq, Eq)]
struct Refusal(u64, u64, u64);

/// A number without place and need.
fn refused<T>(number: u64) -> Result<T, Refusal> {
    Err(Refusal(number, 0, 0))
}

fn refused_at<T>(number: u64, place: usize) -> Result<T, Refusal> {
    Err(Refusal(number, place as u64, 0))
}

fn too_short<T>(need: usize) -> Result<T, Refusal> {
    Err(Refusal(10, 0, need as u64))
}

/// The elements of a reply: the refusal and zeros, or three zeros and the values.
fn reply<const N: usize>(answer: Result<Vec<u64>, Refusal>) -> [u64; N] {
    let mut all = [0; N];
    match answer {
        Err(Refusal(number, place, need)) => all[..3].copy_from_slice(&[number, place, need]),
        Ok(values) => all[3..3 + values.len()].copy_from_slice(&values),
    }
    all
}

const MOST_ROWS: usize = 1_048_576;
const MOST_COLUMNS: usize = 32;
const MOST_TESTS: usize = 16;

/// Whether a column may be so many bits wide.
fn is_width(bits: u8) -> bool {
    (1..=32).contains(&bits)
}

/// Bytes of a code of so many bits.
fn slices(width: u8) -> usize {
    usize::from(width).div_ceil(8)
}

/// Bits that fill up the last byte.
fn pad(width: u8) -> usize {
    8 * slices(width) - usize::from(width)
}

/// How many codes there are of so many bits.
fn codes_of(width: u8) -> u64 {
    1 << width
}
