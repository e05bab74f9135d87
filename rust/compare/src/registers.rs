//! Registers by chance. Their files are the twin's.

use crate::chance::Chance;

pub struct Register {
    pub rows: usize,
    pub widths: Vec<u8>,
    /// Row after row.
    pub codes: Vec<u64>,
    pub file: Vec<u8>,
}

/// How the codes of a column lie.
#[derive(Clone, Copy)]
enum Habit {
    Any,
    Few,
    Near,
    Edges,
    SameBeginning,
    Runs,
}

const HABITS: [Habit; 6] = [Habit::Any, Habit::Few, Habit::Near, Habit::Edges, Habit::SameBeginning, Habit::Runs];
/// Where bytes, segments and blocks of rows begin and end.
const ROW_EDGES: [usize; 24] = [7, 8, 9, 15, 16, 17, 31, 32, 33, 63, 64, 65, 127, 128, 129, 255, 256, 257, 511, 512, 513, 1023, 1024, 1025];
const WIDTH_EDGES: [u8; 12] = [1, 7, 8, 9, 15, 16, 17, 23, 24, 25, 31, 32];

impl Register {
    /// With pads of zeros or, at times, of anything.
    pub fn by_chance(chance: &mut Chance) -> Register {
        let rows = rows(chance);
        let widths = widths(chance, rows);
        let columns: Vec<Vec<u64>> = widths.iter().map(|&width| column(chance, width, rows)).collect();
        let codes: Vec<u64> = (0..rows).flat_map(|row| columns.iter().map(move |column| column[row])).collect();
        let mut register = Register { rows, file: file_of(rows, &widths, &codes), widths, codes };
        if chance.one_in(3) {
            register.dirty_pads(chance);
        }
        register
    }

    pub fn code(&self, row: usize, column: usize) -> u64 {
        self.codes[row * self.widths.len() + column]
    }

    /// Bytes that a scan writes.
    pub fn result_bytes(&self) -> usize {
        self.rows.div_ceil(8)
    }

    /// Bytes of the slices.
    pub fn body(&self) -> usize {
        self.widths.iter().map(|&width| slices(width) * self.rows).sum()
    }

    fn dirty_pads(&mut self, chance: &mut Chance) {
        let mut end = 0;
        for &width in &self.widths {
            end += slices(width) * self.rows;
            let pad = 8 * slices(width) - usize::from(width);
            for byte in &mut self.file[end - self.rows..end] {
                *byte |= chance.number() as u8 & ((1 << pad) - 1) as u8;
            }
        }
    }
}

pub fn slices(width: u8) -> usize {
    usize::from(width).div_ceil(8)
}

pub fn file_of(rows: usize, widths: &[u8], codes: &[u64]) -> Vec<u8> {
    let mut file = vec![0; 4 * codes.len() + 8 * widths.len() + 16];
    let [0, _, _, bytes] = twin::write(rows, widths, codes, &mut file) else { panic!("a fit register is written") };
    file.truncate(bytes as usize);
    file
}

fn rows(chance: &mut Chance) -> usize {
    match chance.below(40) {
        0 => 0,
        1..=6 => chance.within(1..=8),
        7..=16 => chance.of(&ROW_EDGES),
        17..=28 => chance.within(1..=200),
        29..=35 => chance.within(1..=700),
        _ => chance.within(1..=5000),
    }
}

/// Few columns where there are many rows.
fn widths(chance: &mut Chance, rows: usize) -> Vec<u8> {
    let columns = match chance.below(12) {
        _ if rows > 700 => chance.within(1..=4),
        0 => return (1..=32).collect(),
        1 => 32,
        2 | 3 => chance.within(1..=32),
        _ => chance.within(1..=5),
    };
    (0..columns).map(|_| if chance.one_in(3) { chance.of(&WIDTH_EDGES) } else { chance.within(1..=32) as u8 }).collect()
}

fn column(chance: &mut Chance, width: u8, rows: usize) -> Vec<u64> {
    let habit = chance.of(&HABITS);
    let last = (1u64 << width) - 1;
    let any = |chance: &mut Chance| chance.number() & last;
    let few: Vec<u64> = (0..4).map(|_| any(chance)).collect();
    let base = any(chance);
    let free = (1u64 << chance.within(0..=usize::from(width))) - 1;
    let run = chance.within(2..=100);
    let mut now = base;
    let mut code = |chance: &mut Chance| match habit {
        Habit::Any => any(chance),
        Habit::Few => chance.of(&few),
        Habit::Near => base.saturating_sub(2).saturating_add(chance.below(5) as u64).min(last),
        Habit::Edges => chance.of(&[0, 1.min(last), last / 2, last / 2 + 1, last - 1, last]),
        Habit::SameBeginning => base & !free | any(chance) & free,
        Habit::Runs => {
            if chance.one_in(run) {
                now = any(chance);
            }
            now
        }
    };
    (0..rows).map(|_| code(chance)).collect()
}
