//! The laws of the scan, asked of replies of the library.

use crate::calls::Scan;

/// Kept, or how it is broken.
pub type Law = Result<(), String>;

fn held(holds: bool, law: &str, first: &Scan, second: &Scan) -> Law {
    match holds {
        true => Ok(()),
        false => Err(format!("the law is broken: {law}\nfirst {first:?}\nsecond {second:?}")),
    }
}

fn matches(scan: &Scan) -> u64 {
    scan.reply[3]
}

fn total(scan: &Scan) -> u64 {
    scan.reply[4]
}

fn counts(scan: &Scan) -> &[u64] {
    &scan.reply[5..]
}

fn is_within(bits: &[u8], others: &[u8]) -> bool {
    bits.len() == others.len() && bits.iter().zip(others).all(|(bit, other)| bit & !other == 0)
}

/// The tests in another order, `order[i]` being where test i of the second stood in the first: the same rows and total, and each test
/// its count.
pub fn reordered(first: &Scan, second: &Scan, order: &[usize]) -> Law {
    let each = order.iter().enumerate().all(|(now, &before)| counts(second)[now] == counts(first)[before]);
    let same = first.out == second.out && matches(first) == matches(second) && total(first) == total(second);
    held(each && same, "reordered tests", first, second)
}

/// A test put behind the others: no count of these rises and no row is found that was not.
pub fn one_more(first: &Scan, second: &Scan, tests: usize) -> Law {
    let none_rises = (0..tests).all(|test| counts(second)[test] <= counts(first)[test]);
    held(none_rises && is_within(&second.out, &first.out) && matches(second) <= matches(first), "one more test", first, second)
}

/// A test among others and alone: it counts no more among them, and they find no row that it does not.
pub fn alone(among: &Scan, test: usize, alone: &Scan) -> Law {
    let no_more = counts(among)[test] <= counts(alone)[0];
    held(no_more && is_within(&among.out, &alone.out), "a test alone", among, alone)
}

/// A register that differs only in bytes that were not counted: nothing else is answered.
pub fn agreeing(first: &Scan, second: &Scan) -> Law {
    held(first == second, "registers that agree on the bytes counted", first, second)
}

/// Each count lies between the rows and the bytes of its column; the total is their sum, the matches are the bits.
pub fn bounded(scan: &Scan, rows: usize, slices: &[usize]) -> Law {
    let rows = rows as u64;
    let (used, unused) = counts(scan).split_at(slices.len());
    let each = used.iter().zip(slices).all(|(&count, &slices)| rows <= count && count <= rows * slices as u64);
    let sum = total(scan) == used.iter().sum() && unused.iter().all(|&count| count == 0);
    let bits = matches(scan) == scan.out.iter().map(|byte| u64::from(byte.count_ones())).sum();
    held(each && sum && bits, "bounds of the counts", scan, scan)
}

/// Each law is kept by what keeps it, and broken by what does not.
#[cfg(test)]
mod tests {
    use super::*;

    fn scan(out: &[u8], counts: &[u64]) -> Scan {
        let mut reply = [0; 21];
        reply[3] = out.iter().map(|byte| u64::from(byte.count_ones())).sum();
        reply[4] = counts.iter().sum();
        reply[5..5 + counts.len()].copy_from_slice(counts);
        Scan { reply, out: out.to_vec() }
    }

    #[test]
    fn order_moves_counts_and_nothing_else() {
        let first = scan(&[5], &[12, 10]);
        assert!(reordered(&first, &scan(&[5], &[10, 12]), &[1, 0]).is_ok());
        assert!(reordered(&first, &scan(&[5], &[12, 10]), &[1, 0]).is_err());
        assert!(reordered(&first, &scan(&[6], &[10, 12]), &[1, 0]).is_err());
    }

    #[test]
    fn one_more_test_raises_nothing() {
        let first = scan(&[5], &[12]);
        assert!(one_more(&first, &scan(&[4], &[12, 30]), 1).is_ok());
        assert!(one_more(&first, &scan(&[4], &[13, 30]), 1).is_err());
        assert!(one_more(&first, &scan(&[2], &[12, 30]), 1).is_err());
    }

    #[test]
    fn alone_a_test_counts_most() {
        let among = scan(&[5], &[12, 10]);
        assert!(alone(&among, 1, &scan(&[7], &[10])).is_ok());
        assert!(alone(&among, 0, &scan(&[7], &[11])).is_err());
        assert!(alone(&among, 1, &scan(&[4], &[10])).is_err());
    }

    #[test]
    fn agreeing_registers_are_answered_alike() {
        assert!(agreeing(&scan(&[5], &[12]), &scan(&[5], &[12])).is_ok());
        assert!(agreeing(&scan(&[5], &[12]), &scan(&[5], &[13])).is_err());
        assert!(agreeing(&scan(&[5], &[12]), &scan(&[6], &[12])).is_err());
    }

    #[test]
    fn counts_have_bounds() {
        assert!(bounded(&scan(&[5], &[8, 16]), 8, &[1, 2]).is_ok());
        assert!(bounded(&scan(&[5], &[7, 16]), 8, &[1, 2]).is_err());
        assert!(bounded(&scan(&[5], &[8, 17]), 8, &[1, 2]).is_err());
        assert!(bounded(&scan(&[5], &[8, 16, 1]), 8, &[1, 2]).is_err());
    }
}
