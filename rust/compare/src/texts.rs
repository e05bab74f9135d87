//! Queries by chance and their texts, good and bad.

use crate::chance::Chance;
use crate::registers::Register;

pub const SIGNS: [&str; 6] = ["<", "<=", ">", ">=", "=", "!="];
pub const SIZES: [u64; 4] = [8, 16, 32, 64];
const OTHER_SIZES: [u64; 14] = [0, 1, 4, 7, 9, 12, 24, 48, 63, 65, 128, 264, 4_294_967_295, 2_147_483_656];
/// Numbers around the edge of what a decimal may be, and such as wrap into small ones.
const NUMBERS: [&str; 16] = [
    "0",
    "00",
    "01",
    "-1",
    "+1",
    "4294967295",
    "4294967296",
    "4294967304",
    "42949672950",
    "9999999999",
    "18446744073709551615",
    "18446744073709551616",
    "18446744073709551624",
    "340282366920938463463374607431768211464",
    "1000000000000000000000000000000000000000000000000000000",
    "",
];
const ALPHABET: &[u8] = b" \n0123456789<>=!segmntSx\r\t\0+-.\x80\xFF";

#[derive(Clone, Copy, Debug, PartialEq, Eq)]
pub struct Test {
    pub column: u64,
    pub sign: &'static str,
    pub literal: u64,
}

#[derive(Clone, Debug)]
pub struct Query {
    pub size: u64,
    pub tests: Vec<Test>,
}

impl Query {
    /// One that the register can be asked.
    pub fn fit(chance: &mut Chance, register: &Register) -> Query {
        let count = match chance.below(12) {
            0 => 0,
            1 => 16,
            2 | 3 => chance.within(5..=16),
            _ => chance.within(1..=4),
        };
        Query { size: chance.of(&SIZES), tests: (0..count).map(|_| Test::fit(chance, register)).collect() }
    }

    /// One that has something the register cannot be asked, or too much of it.
    pub fn unfit(chance: &mut Chance, register: &Register) -> Query {
        let mut query = Query::fit(chance, register);
        if query.tests.is_empty() {
            query.tests.push(Test::fit(chance, register));
        }
        for _ in 0..chance.within(1..=2) {
            query.spoil(chance, register);
        }
        query
    }

    fn spoil(&mut self, chance: &mut Chance, register: &Register) {
        let at = chance.below(self.tests.len());
        let test = &mut self.tests[at];
        let columns = register.widths.len() as u64;
        match chance.below(6) {
            0 => self.size = chance.of(&OTHER_SIZES),
            1 | 2 => test.column = chance.of(&[columns, columns + 1, 32, 33, 255, 256, 65_536, 4_294_967_295]),
            3 | 4 => test.literal = too_large(chance, register, test.column),
            _ => {
                let more = chance.within(1..=24);
                self.tests.resize_with(16 + more, || Test::fit(chance, register));
            }
        }
    }

    pub fn text(&self) -> Vec<u8> {
        let mut text = format!("segment {}\n", self.size);
        for test in &self.tests {
            text += &format!("{} {} {}\n", test.column, test.sign, test.literal);
        }
        text.into_bytes()
    }
}

impl Test {
    pub fn fit(chance: &mut Chance, register: &Register) -> Test {
        let column = chance.below(register.widths.len());
        Test { column: column as u64, sign: chance.of(&SIGNS), literal: literal(chance, register, column) }
    }
}

/// A literal that the column can hold: near a code, at an edge, or any.
fn literal(chance: &mut Chance, register: &Register, column: usize) -> u64 {
    let last = (1u64 << register.widths[column]) - 1;
    let near = match register.rows {
        0 => chance.number() & last,
        rows => register.code(chance.below(rows), column),
    };
    match chance.below(10) {
        0 => 0,
        1 => last,
        2 => near.saturating_sub(1),
        3 => (near + 1).min(last),
        4 => chance.number() & last,
        5 => near ^ (1 << chance.below(usize::from(register.widths[column]))),
        _ => near,
    }
}

/// A literal of one bit more than the column holds, or of more.
fn too_large(chance: &mut Chance, register: &Register, column: u64) -> u64 {
    let width = register.widths.get(column as usize).copied().unwrap_or(8);
    let above = 1u64 << width;
    chance.of(&[above, above + 1, 2 * above - 1, 4_294_967_295]).min(4_294_967_295)
}

/// A text with one or some bytes or lines changed.
pub fn spoiled(chance: &mut Chance, text: &[u8]) -> Vec<u8> {
    let mut text = text.to_vec();
    for _ in 0..chance.of(&[1, 1, 1, 2, 5]) {
        spoil(chance, &mut text);
    }
    text
}

fn spoil(chance: &mut Chance, text: &mut Vec<u8>) {
    let at = chance.below(text.len() + 1);
    let some = at < text.len();
    match chance.below(9) {
        0 if some => text[at] = chance.of(ALPHABET),
        1 if some => text[at] = chance.number() as u8,
        2 if some => drop(text.remove(at)),
        3 => text.insert(at, chance.of(ALPHABET)),
        4 => text.truncate(at),
        5 => drop(text.pop()),
        6 => replace_number(chance, text),
        7 => drop(text.drain(..at)),
        _ => {
            let copy = text[at..].to_vec();
            text.extend(copy);
        }
    }
}

/// Puts another number where a word of digits stands.
fn replace_number(chance: &mut Chance, text: &mut Vec<u8>) {
    let starts: Vec<usize> =
        (0..text.len()).filter(|&at| text[at].is_ascii_digit() && (at == 0 || !text[at - 1].is_ascii_digit())).collect();
    if starts.is_empty() {
        return;
    }
    let start = chance.of(&starts);
    let digits = text[start..].iter().take_while(|byte| byte.is_ascii_digit()).count();
    text.splice(start..start + digits, chance.of(&NUMBERS).bytes());
}

/// A text that is no query but by luck.
pub fn any(chance: &mut Chance) -> Vec<u8> {
    let length = chance.below(40);
    match chance.below(3) {
        0 => chance.bytes(length),
        1 => (0..length).map(|_| chance.of(ALPHABET)).collect(),
        _ => [b"segment 8\n".to_vec(), (0..length).map(|_| chance.of(b" \n019<>=!")).collect()].concat(),
    }
}
