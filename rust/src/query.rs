//! A query: a segment size and up to 16 tests that a row must all meet.

use std::fmt;
use std::str::FromStr;

use crate::Refusal;

/// How a code is compared with a literal.
#[derive(Clone, Copy, Debug, PartialEq, Eq, Hash)]
pub enum Comparison {
    /// `<`
    Less,
    /// `<=`
    AtMost,
    /// `>`
    More,
    /// `>=`
    AtLeast,
    /// `=`
    Equal,
    /// `!=`
    Differs,
}

/// The comparisons in the order of their numbers in a reply.
pub const COMPARISONS: [Comparison; 6] =
    [Comparison::Less, Comparison::AtMost, Comparison::More, Comparison::AtLeast, Comparison::Equal, Comparison::Differs];

impl Comparison {
    /// As a query's text has it.
    pub fn sign(self) -> &'static str {
        match self {
            Comparison::Less => "<",
            Comparison::AtMost => "<=",
            Comparison::More => ">",
            Comparison::AtLeast => ">=",
            Comparison::Equal => "=",
            Comparison::Differs => "!=",
        }
    }
}

/// A test: the code of this column, compared with this literal.
#[derive(Clone, Copy, Debug, PartialEq, Eq, Hash)]
pub struct Test {
    /// From 0.
    pub column: u64,
    /// How the code is compared.
    pub comparison: Comparison,
    /// What it is compared with.
    pub literal: u64,
}

/// A query. Printed, it is the text that the scan takes; parsed, it is what [`read`](crate::read) answers.
///
/// ```
/// use rutksmeln::{Comparison, Query, Test};
/// let query = Query { size: 8, tests: vec![Test { column: 0, comparison: Comparison::Less, literal: 512 }] };
/// assert_eq!(query.to_string(), "segment 8\n0 < 512\n");
/// assert_eq!("segment 8\n0 < 512\n".parse(), Ok(query));
/// ```
#[derive(Clone, Debug, PartialEq, Eq, Hash)]
pub struct Query {
    /// How many rows are taken at a time: 8, 16, 32 or 64.
    pub size: u64,
    /// At most 16. With none, every row is found.
    pub tests: Vec<Test>,
}

impl fmt::Display for Query {
    fn fmt(&self, to: &mut fmt::Formatter<'_>) -> fmt::Result {
        writeln!(to, "segment {}", self.size)?;
        for test in &self.tests {
            writeln!(to, "{} {} {}", test.column, test.comparison.sign(), test.literal)?;
        }
        Ok(())
    }
}

impl FromStr for Query {
    type Err = Refusal;

    fn from_str(text: &str) -> Result<Query, Refusal> {
        crate::read(text.as_bytes())
    }
}
