//! What is accepted at a limit and refused behind it, and calls that are lent nothing.

use crate::calls::{Bench, Verdict};
use crate::registers::file_of;

const MOST_ROWS: usize = 1_048_576;

pub fn limits(bench: &mut Bench) -> Verdict<()> {
    most_rows(bench)?;
    most_columns(bench)?;
    most_tests(bench)?;
    nothing(bench)
}

/// As many rows as there may be, and one more.
fn most_rows(bench: &mut Bench) -> Verdict<()> {
    for rows in [MOST_ROWS, MOST_ROWS + 1] {
        let widths = [9, 1];
        let codes: Vec<u64> = (0..2 * rows as u64).map(|at| if at % 2 == 0 { at * 37 % 512 } else { at / 2 % 3 / 2 }).collect();
        let length = 3 * rows + 2 * 8 + 16;
        let (_, written) = bench.write(rows, &widths, &codes, length)?;
        let file = if rows > MOST_ROWS { with_one_more_row() } else { written };
        bench.open(&file)?;
        bench.widths(&file, 2)?;
        for size in [8, 64] {
            let text = format!("segment {size}\n0 < 300\n1 = 1\n0 != 7\n");
            let scan = bench.scan(&file, text.as_bytes(), rows.div_ceil(8))?;
            bench.list(rows, &scan.out, rows)?;
        }
        let list = [0, MOST_ROWS as u32 - 1, MOST_ROWS as u32 / 2];
        bench.look_up(&file, 0, &list, 3)?;
        bench.look_up(&file, 1, &[0, MOST_ROWS as u32], 3)?;
    }
    Ok(())
}

/// A file that is fit but for the number of its rows.
fn with_one_more_row() -> Vec<u8> {
    let codes = vec![1; MOST_ROWS];
    let mut file = file_of(MOST_ROWS, &[1], &codes);
    file.insert(0, 128);
    let trailer = file.len() - 16;
    file[trailer..trailer + 4].copy_from_slice(&(MOST_ROWS as u32 + 1).to_le_bytes());
    file[trailer + 8..trailer + 12].copy_from_slice(&(MOST_ROWS as u32 + 1).to_le_bytes());
    file
}

/// 32 columns of 32 bits, and one more of each.
fn most_columns(bench: &mut Bench) -> Verdict<()> {
    let codes: Vec<u64> = (0..64).map(|at| 4_294_967_295 - at).collect();
    bench.write(2, &[32; 32], &codes, 1000)?;
    bench.write(2, &[32; 33], &codes, 1000)?;
    let mut widths = [32; 32];
    widths[31] = 33;
    bench.write(2, &widths, &codes, 1000)?;
    let file = file_of(2, &[32; 32], &codes);
    for room in 0..=34 {
        bench.widths(&file, room)?;
    }
    bench.scan(&file, b"segment 8\n31 = 4294967264\n", 1)?;
    bench.scan(&file, b"segment 8\n32 = 4294967264\n", 1)?;
    bench.look_up(&file, 31, &[1, 0], 2)?;
    bench.look_up(&file, 32, &[1, 0], 2).map(|_| ())
}

fn most_tests(bench: &mut Bench) -> Verdict<()> {
    let file = file_of(3, &[8], &[126, 127, 128]);
    for tests in [0, 1, 15, 16, 17, 40] {
        let text = ["segment 8\n", &"0 < 128\n".repeat(tests)].concat();
        bench.read(text.as_bytes())?;
        bench.read(&text.as_bytes()[..text.len() - 1])?;
        bench.scan(&file, text.as_bytes(), 1)?;
    }
    bench.scan(&file, b"segment 8\n0 < 255\n", 1)?;
    bench.scan(&file, b"segment 8\n0 < 256\n", 1).map(|_| ())
}

/// Nothing lent, nothing asked.
fn nothing(bench: &mut Bench) -> Verdict<()> {
    bench.open(&[])?;
    bench.widths(&[], 0)?;
    bench.widths(&file_of(0, &[1], &[]), 0)?;
    bench.write(0, &[], &[], 0)?;
    bench.write(0, &[1], &[], 0)?;
    bench.write(0, &[1], &[], 24)?;
    bench.read(&[])?;
    bench.scan(&[], &[], 0)?;
    bench.scan(&file_of(0, &[1], &[]), b"segment 8\n0 = 1\n", 0)?;
    bench.list(0, &[], 0)?;
    bench.list(0, &[0], 0)?;
    bench.look_up(&[], 0, &[], 0)?;
    bench.look_up(&file_of(0, &[1], &[]), 0, &[], 0)?;
    bench.look_up(&file_of(0, &[1], &[]), 0, &[0], 1).map(|_| ())
}
