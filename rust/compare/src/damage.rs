//! Files that something happened to.

use crate::chance::Chance;

const ENTRY: usize = 8;
const TRAILER: usize = 16;
/// Where a field of the trailer begins, and its bytes: rows, columns, version, offset of the directory, mark.
const TRAILER_FIELDS: [(usize, usize); 5] = [(0, 4), (4, 2), (6, 2), (8, 4), (12, 4)];
/// Where a field of an entry begins, and its bytes: width, three spare ones, offset.
const ENTRY_FIELDS: [(usize, usize); 5] = [(0, 1), (1, 1), (2, 1), (3, 1), (4, 4)];
const NUMBERS: [u64; 16] = [0, 1, 2, 16, 31, 32, 33, 255, 256, 257, 65_535, 1_048_575, 1_048_576, 1_048_577, 2_147_483_648, 4_294_967_295];

/// A file with one or two damages, of which some may leave it fit.
pub fn damaged(chance: &mut Chance, file: &[u8]) -> Vec<u8> {
    let mut file = file.to_vec();
    damage(chance, &mut file);
    if chance.one_in(3) {
        damage(chance, &mut file);
    }
    file
}

fn damage(chance: &mut Chance, file: &mut Vec<u8>) {
    match chance.below(16) {
        0..=4 => trailer_field(chance, file),
        5..=8 => entry_field(chance, file),
        9 => flip(chance, file, usize::MAX),
        10 => flip(chance, file, TRAILER + 2 * ENTRY),
        11 => cut(chance, file),
        12 => insert(chance, file),
        13 => other_body(chance, file),
        14 => exchange_entries(chance, file),
        _ => *file = trailer_alone(chance),
    }
}

fn trailer_field(chance: &mut Chance, file: &mut [u8]) {
    let (start, size) = chance.of(&TRAILER_FIELDS);
    if let Some(trailer) = file.len().checked_sub(TRAILER) {
        change_number(chance, &mut file[trailer + start..trailer + start + size]);
    }
}

fn entry_field(chance: &mut Chance, file: &mut [u8]) {
    let (start, size) = chance.of(&ENTRY_FIELDS);
    if let Some(entry) = any_entry(chance, file) {
        change_number(chance, &mut file[entry + start..entry + start + size]);
    }
}

/// Where some column's entry begins, when the file says a number of columns that it has room for.
fn any_entry(chance: &mut Chance, file: &[u8]) -> Option<usize> {
    let trailer = file.len().checked_sub(TRAILER)?;
    let columns = usize::from(file[trailer + 4]).clamp(1, 32);
    let directory = trailer.checked_sub(ENTRY * columns)?;
    Some(directory + ENTRY * chance.below(columns))
}

/// Another number in these bytes: one more, one less, a bit flipped, one of those at an edge, or any.
fn change_number(chance: &mut Chance, field: &mut [u8]) {
    let number = number_in(field);
    let other = match chance.below(6) {
        0 => number.wrapping_add(1),
        1 => number.wrapping_sub(1),
        2 => number ^ (1 << chance.below(8 * field.len())),
        3 => chance.number(),
        _ => chance.of(&NUMBERS),
    };
    let size = field.len();
    field.copy_from_slice(&other.to_le_bytes()[..size]);
}

fn number_in(field: &[u8]) -> u64 {
    field.iter().rev().fold(0, |sum, &byte| sum * 256 + u64::from(byte))
}

/// A bit of the last bytes flipped, or of all where there are not so many.
fn flip(chance: &mut Chance, file: &mut [u8], last: usize) {
    let first = file.len().saturating_sub(last);
    if !file.is_empty() {
        let at = chance.within(first..=file.len() - 1);
        file[at] ^= 1 << chance.below(8);
    }
}

/// Bytes lost in front, behind or between.
fn cut(chance: &mut Chance, file: &mut Vec<u8>) {
    let length = chance.of(&[1, 1, 2, 8, 16, 28]).min(file.len());
    match chance.below(4) {
        0 => drop(file.drain(..length)),
        1 => file.truncate(file.len() - length),
        2 => file.truncate(chance.below(file.len().min(40) + 1)),
        _ => {
            let at = chance.below(file.len() - length + 1);
            file.drain(at..at + length);
        }
    }
}

/// Bytes added in front, behind or between.
fn insert(chance: &mut Chance, file: &mut Vec<u8>) {
    let length = chance.of(&[1, 1, 2, 8, 16]);
    let bytes = chance.bytes(length);
    let at = match chance.below(3) {
        0 => 0,
        1 => file.len(),
        _ => chance.below(file.len() + 1),
    };
    file.splice(at..at, bytes);
}

/// A body that is longer or shorter, with a trailer that puts the directory behind it.
fn other_body(chance: &mut Chance, file: &mut Vec<u8>) {
    if file.len() < TRAILER {
        return;
    }
    let trailer = file.len() - TRAILER;
    let directory = number_in(&file[trailer + 8..trailer + 12]) as usize;
    let longer = chance.one_in(2);
    if directory > trailer || (directory == 0 && !longer) {
        return;
    }
    let at = chance.below(directory.max(1));
    let by = if longer { chance.within(1..=9) } else { chance.within(1..=9).min(directory - at) };
    match longer {
        true => drop(file.splice(at..at, chance.bytes(by))),
        false => drop(file.drain(at..at + by)),
    }
    let directory = if longer { directory + by } else { directory - by };
    let trailer = file.len() - TRAILER;
    file[trailer + 8..trailer + 12].copy_from_slice(&(directory as u32).to_le_bytes());
}

fn exchange_entries(chance: &mut Chance, file: &mut [u8]) {
    if let (Some(one), Some(other)) = (any_entry(chance, file), any_entry(chance, file)) {
        for at in 0..ENTRY {
            file.swap(one + at, other + at);
        }
    }
}

/// Few bytes, with a trailer whose fields are by chance small or any.
fn trailer_alone(chance: &mut Chance) -> Vec<u8> {
    let length = chance.below(30);
    let mut file = chance.bytes(length);
    file.extend((chance.below(3) as u32).to_le_bytes());
    file.extend((chance.below(3) as u16).to_le_bytes());
    file.extend(1u16.to_le_bytes());
    file.extend((chance.below(30) as u32).to_le_bytes());
    file.extend(b"BSL1");
    file
}
