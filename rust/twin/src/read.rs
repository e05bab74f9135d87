//! Reading the text of a query.

use crate::fault::{planted, Fault};
use crate::{refused, refused_at, reply, Refusal, MOST_TESTS};

#[derive(Clone, Copy, Debug, PartialEq, Eq)]
pub enum Comparison {
    Less,
    AtMost,
    More,
    AtLeast,
    Equal,
    Differs,
}

#[derive(Clone, Copy, Debug, PartialEq, Eq)]
pub struct Test {
    pub column: u64,
    pub comparison: Comparison,
    pub literal: u64,
}

pub struct Query {
    pub size: u64,
    pub tests: Vec<Test>,
}

/// Reading: number, place, need, size, count, then a column, a comparison and a literal for each of 16 slots.
pub fn read(text: &[u8]) -> [u64; 53] {
    reply(query_of(text).map(|query| {
        let mut values = vec![query.size, query.tests.len() as u64];
        for test in query.tests {
            values.extend([test.column, test.comparison as u64, test.literal]);
        }
        values
    }))
}

/// Every line is judged before their number is.
pub(crate) fn query_of(text: &[u8]) -> Result<Query, Refusal> {
    let mut lines: Vec<&[u8]> = text.split(|&byte| byte == b'\n').collect();
    let behind_the_last = lines.pop().unwrap_or_default();
    if planted(Fault::LineFeedLeftOut) && !behind_the_last.is_empty() {
        lines.push(behind_the_last);
    }
    let mut query = Query { size: 0, tests: Vec::new() };
    for (place, line) in lines.iter().enumerate() {
        let words: Vec<&[u8]> = line.split(|&byte| byte == b' ').collect();
        let formed = match place {
            0 => size_of(&words).map(|size| query.size = size),
            _ => test_of(&words).map(|test| query.tests.push(test)),
        };
        if formed.is_none() {
            return refused_at(17, place);
        }
    }
    let unended = !behind_the_last.is_empty() && !planted(Fault::LineFeedLeftOut);
    if lines.is_empty() || unended {
        return refused_at(17, lines.len());
    }
    if query.tests.len() > MOST_TESTS {
        return refused(11);
    }
    Ok(query)
}

fn size_of(words: &[&[u8]]) -> Option<u64> {
    match words {
        [b"segment", size] => decimal(size),
        _ => None,
    }
}

fn test_of(words: &[&[u8]]) -> Option<Test> {
    let [column, sign, literal] = words else { return None };
    let comparison = match *sign {
        b"<" => Comparison::Less,
        b"<=" => Comparison::AtMost,
        b">" => Comparison::More,
        b">=" => Comparison::AtLeast,
        b"=" => Comparison::Equal,
        b"!=" => Comparison::Differs,
        _ => return None,
    };
    Some(Test { column: decimal(column)?, comparison, literal: decimal(literal)? })
}

/// A number below 2^32 in the one spelling it has.
fn decimal(word: &[u8]) -> Option<u64> {
    let number: u32 = std::str::from_utf8(word).ok()?.parse().ok()?;
    let spelled = number.to_string().as_bytes() == word;
    let zeros = planted(Fault::LeadingZero) && word[0] == b'0';
    (spelled || zeros).then_some(u64::from(number))
}
