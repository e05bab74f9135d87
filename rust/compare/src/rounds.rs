//! A round: one register by chance, and calls of every kind on it and around it.

use crate::calls::{Bench, Scan, Verdict};
use crate::chance::Chance;
use crate::damage::damaged;
use crate::laws;
use crate::registers::{slices, Register};
use crate::tally::Law;
use crate::texts::{self, Query, Test};

pub fn round(bench: &mut Bench) -> Verdict<()> {
    let register = Register::by_chance(&mut bench.chance);
    bench.open(&register.file)?;
    widths(bench, &register)?;
    writes(bench, &register)?;
    texts_read(bench, &register)?;
    scans(bench, &register)?;
    lists(bench, &register)?;
    lookups(bench, &register)?;
    damaged_files(bench, &register)?;
    written_is_looked_up(bench, &register)?;
    scan_laws(bench, &register)
}

/// Only the calls that take a file, on files that something happened to.
pub fn damaged_round(bench: &mut Bench) -> Verdict<()> {
    let register = Register::by_chance(&mut bench.chance);
    bench.open(&register.file)?;
    damaged_files(bench, &register)
}

/// Room for as many widths as there are columns, for one less and one more, and for some other number.
fn widths(bench: &mut Bench, register: &Register) -> Verdict<()> {
    let columns = register.widths.len();
    let other = bench.chance.near(columns);
    for room in [columns - 1, columns, columns + 1, other] {
        bench.widths(&register.file, room)?;
    }
    Ok(())
}

fn writes(bench: &mut Bench, register: &Register) -> Verdict<()> {
    let room = bench.chance.near(register.file.len());
    bench.write(register.rows, &register.widths, &register.codes, room)?;
    for _ in 0..2 {
        let (mut rows, mut widths, mut codes) = (register.rows, register.widths.clone(), register.codes.clone());
        for _ in 0..bench.chance.within(1..=2) {
            match bench.chance.below(4) {
                0 => rows = other_rows(&mut bench.chance, rows),
                1 => spoil_widths(&mut bench.chance, &mut widths),
                2 => spoil_number(&mut bench.chance, &mut codes),
                _ => spoil_codes(&mut bench.chance, &register.widths, &mut codes),
            }
        }
        let room = bench.chance.near(register.file.len());
        bench.write(rows, &widths, &codes, room)?;
    }
    Ok(())
}

/// Another number of rows: near by, at the limit, or so large that a product with it would wrap.
fn other_rows(chance: &mut Chance, rows: usize) -> usize {
    chance.of(&[rows.wrapping_add(1), rows.wrapping_sub(1), 0, 1_048_576, 1_048_577, 1 << 32, 1 << 59, 1 << 63, usize::MAX])
}

fn spoil_widths(chance: &mut Chance, widths: &mut Vec<u8>) {
    match chance.below(6) {
        0 => widths.clear(),
        1 => widths.resize(chance.within(30..=40), 8),
        2 => widths.push(8),
        _ => {
            for _ in 0..chance.within(1..=2) {
                let at = chance.below(widths.len().max(1));
                if let Some(width) = widths.get_mut(at) {
                    *width = chance.of(&[0, 1, 8, 31, 32, 33, 64, 255]);
                }
            }
        }
    }
}

fn spoil_number(chance: &mut Chance, codes: &mut Vec<u64>) {
    match chance.below(4) {
        0 => codes.clear(),
        1 => drop(codes.pop()),
        2 => codes.push(u64::MAX),
        _ => codes.push(0),
    }
}

/// Codes that are too large for their column, at one place or two.
fn spoil_codes(chance: &mut Chance, widths: &[u8], codes: &mut [u64]) {
    for _ in 0..chance.within(1..=2) {
        if !codes.is_empty() {
            let at = chance.below(codes.len());
            let above = 1u64 << widths[at % widths.len()];
            codes[at] = chance.of(&[above, above + 1, 2 * above, 1 << 32, 1 << 63, u64::MAX]);
        }
    }
}

fn texts_read(bench: &mut Bench, register: &Register) -> Verdict<()> {
    let fit = Query::fit(&mut bench.chance, register).text();
    let unfit = Query::unfit(&mut bench.chance, register).text();
    bench.read(&fit)?;
    bench.read(&unfit)?;
    for text in [&fit, &fit, &fit, &unfit] {
        let text = texts::spoiled(&mut bench.chance, text);
        bench.read(&text)?;
    }
    let any = texts::any(&mut bench.chance);
    bench.read(&any).map(|_| ())
}

fn scans(bench: &mut Bench, register: &Register) -> Verdict<()> {
    for _ in 0..4 {
        let text = Query::fit(&mut bench.chance, register).text();
        scan_near(bench, register, &text)?;
    }
    for _ in 0..2 {
        let text = Query::unfit(&mut bench.chance, register).text();
        scan_near(bench, register, &text)?;
    }
    let text = Query::fit(&mut bench.chance, register).text();
    let text = texts::spoiled(&mut bench.chance, &text);
    scan_near(bench, register, &text)
}

/// A scan with about as much room as it needs.
fn scan_near(bench: &mut Bench, register: &Register, text: &[u8]) -> Verdict<()> {
    let room = bench.chance.near(register.result_bytes());
    bench.scan(&register.file, text, room).map(|_| ())
}

fn lists(bench: &mut Bench, register: &Register) -> Verdict<()> {
    for _ in 0..4 {
        let mut bits = bits(&mut bench.chance, register.rows);
        let mut rows = register.rows;
        match bench.chance.below(12) {
            0 => bits.push(0),
            1 => drop(bits.pop()),
            2 => rows = other_rows(&mut bench.chance, rows),
            3 => set_past_the_end(&mut bench.chance, rows, &mut bits),
            _ => (),
        }
        let set = bits.iter().map(|byte| byte.count_ones() as usize).sum();
        let room = bench.chance.near(set);
        bench.list(rows, &bits, room)?;
    }
    Ok(())
}

/// Bits of so many rows: many, few, all or none.
fn bits(chance: &mut Chance, rows: usize) -> Vec<u8> {
    let mut bits = chance.bytes(rows.div_ceil(8));
    match chance.below(5) {
        0 => bits.fill(0),
        1 => bits.fill(255),
        2 => bits.iter_mut().for_each(|byte| *byte &= chance.number() as u8 & chance.number() as u8),
        _ => (),
    }
    let in_last = rows % 8;
    if in_last > 0 {
        bits[rows / 8] &= (1 << in_last) - 1;
    }
    bits
}

fn set_past_the_end(chance: &mut Chance, rows: usize, bits: &mut [u8]) {
    let in_last = rows % 8;
    if in_last > 0 {
        bits[rows / 8] |= 1 << chance.within(in_last..=7);
    }
}

fn lookups(bench: &mut Bench, register: &Register) -> Verdict<()> {
    for _ in 0..3 {
        let column = match bench.chance.below(8) {
            0 => bench.chance.of(&[register.widths.len(), 32, 33, 1 << 32, usize::MAX]),
            _ => bench.chance.below(register.widths.len()),
        };
        let rows = row_list(&mut bench.chance, register.rows);
        let room = bench.chance.near(rows.len());
        bench.look_up(&register.file, column, &rows, room)?;
    }
    Ok(())
}

/// Rows in any order, with repeats, at times with such as are not there.
fn row_list(chance: &mut Chance, rows: usize) -> Vec<u32> {
    let length = if rows == 0 { 0 } else { chance.below(60) };
    let mut list: Vec<u32> = (0..length).map(|_| chance.below(rows) as u32).collect();
    if chance.one_in(3) {
        for _ in 0..chance.within(1..=2) {
            let absent = chance.of(&[rows as u32, rows as u32 + 1, 1_048_576, u32::MAX]);
            list.insert(chance.below(list.len() + 1), absent);
        }
    }
    list
}

fn damaged_files(bench: &mut Bench, register: &Register) -> Verdict<()> {
    for _ in 0..8 {
        let file = damaged(&mut bench.chance, &register.file);
        bench.open(&file)?;
        if bench.chance.one_in(3) {
            let room = bench.chance.near(register.widths.len());
            bench.widths(&file, room)?;
        }
        if bench.chance.one_in(3) {
            let text = Query::fit(&mut bench.chance, register).text();
            let room = bench.chance.near(register.result_bytes());
            bench.scan(&file, &text, room)?;
        }
        if bench.chance.one_in(3) {
            let rows = row_list(&mut bench.chance, register.rows);
            let column = bench.chance.below(register.widths.len());
            bench.look_up(&file, column, &rows, rows.len())?;
        }
    }
    Ok(())
}

/// What is written opens to the same numbers and has the same widths, and every code of some column is looked up again.
fn written_is_looked_up(bench: &mut Bench, register: &Register) -> Verdict<()> {
    let Register { rows, widths, codes, .. } = register;
    let (written, file) = bench.write(*rows, widths, codes, register.file.len())?;
    if written != [0, 0, 0, file.len() as u64] {
        return Err(format!("the law is broken: a fit register is written\nanswered {written:?}"));
    }
    if bench.open(&file)? != [0, 0, 0, *rows as u64, widths.len() as u64] {
        return Err("the law is broken: what is written opens".to_string());
    }
    if bench.widths(&file, widths.len())?.1 != *widths {
        return Err("the law is broken: what is written has its widths".to_string());
    }
    let column = bench.chance.below(widths.len());
    let list: Vec<u32> = (0..*rows as u32).collect();
    let (_, found) = bench.look_up(&file, column, &list, *rows)?;
    bench.tally.add_law(Law::WrittenIsLookedUp);
    match (0..*rows).find(|&row| found[row] != register.code(row, column)) {
        None => Ok(()),
        Some(row) => Err(format!("the law is broken: what is written is looked up again\nrow {row} column {column}")),
    }
}

fn scan_laws(bench: &mut Bench, register: &Register) -> Verdict<()> {
    let mut query = Query::fit(&mut bench.chance, register);
    if query.tests.is_empty() {
        query.tests.push(Test::fit(&mut bench.chance, register));
    }
    let first = asked(bench, register, &query)?;
    let of_tests: Vec<usize> = query.tests.iter().map(|test| slices(register.widths[test.column as usize])).collect();
    bench.tally.add_law(Law::Bounded);
    laws::bounded(&first, register.rows, &of_tests)?;
    reordered(bench, register, &query, &first)?;
    one_more(bench, register, &query, &first)?;
    alone(bench, register, &query, &first)?;
    agreeing(bench, register, &query, &first)
}

/// The scan of a query that the register can be asked, with as much room as it needs.
fn asked(bench: &mut Bench, register: &Register, query: &Query) -> Verdict<Scan> {
    bench.scan(&register.file, &query.text(), register.result_bytes())
}

fn reordered(bench: &mut Bench, register: &Register, query: &Query, first: &Scan) -> Verdict<()> {
    let mut order: Vec<usize> = (0..query.tests.len()).collect();
    for at in (1..order.len()).rev() {
        order.swap(at, bench.chance.below(at + 1));
    }
    let other = Query { size: query.size, tests: order.iter().map(|&at| query.tests[at]).collect() };
    let second = asked(bench, register, &other)?;
    bench.tally.add_law(Law::Reordered);
    laws::reordered(first, &second, &order)
}

fn one_more(bench: &mut Bench, register: &Register, query: &Query, first: &Scan) -> Verdict<()> {
    if query.tests.len() == 16 {
        return Ok(());
    }
    let mut longer = query.clone();
    longer.tests.push(Test::fit(&mut bench.chance, register));
    let second = asked(bench, register, &longer)?;
    bench.tally.add_law(Law::OneMore);
    laws::one_more(first, &second, query.tests.len())
}

fn alone(bench: &mut Bench, register: &Register, query: &Query, first: &Scan) -> Verdict<()> {
    let test = bench.chance.below(query.tests.len());
    let single = Query { size: query.size, tests: vec![query.tests[test]] };
    let second = asked(bench, register, &single)?;
    bench.tally.add_law(Law::Alone);
    laws::alone(first, test, &second)
}

/// Bytes of the slices that were not counted are changed: one of them, some, or all.
fn agreeing(bench: &mut Bench, register: &Register, query: &Query, first: &Scan) -> Verdict<()> {
    let text = query.text();
    let mut counted = vec![false; register.body()];
    for bytes in twin::counted_bytes(&register.file, &text) {
        counted[bytes].fill(true);
    }
    let free: Vec<usize> = (0..counted.len()).filter(|&at| !counted[at]).collect();
    if free.is_empty() {
        return Ok(());
    }
    let mut file = register.file.clone();
    match bench.chance.below(3) {
        0 => file[bench.chance.of(&free)] ^= 1 << bench.chance.below(8),
        1 => free.iter().filter(|_| bench.chance.one_in(4)).for_each(|&at| file[at] = !file[at]),
        _ => free.iter().for_each(|&at| file[at] = bench.chance.number() as u8),
    }
    let second = bench.scan(&file, &text, register.result_bytes())?;
    bench.tally.add_law(Law::Agreeing);
    laws::agreeing(first, &second)
}
