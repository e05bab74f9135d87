//! How many calls were compared, by call and by the number of the refusal.

use rutksmeln::Call;

/// Each call with the numbers that it can answer; 0 is an accepted call.
const ANSWERS: [(Call, &[usize]); 7] = [
    (Call::Open, &[0, 1, 2, 3, 4, 5, 6, 7]),
    (Call::Widths, &[0, 1, 2, 3, 4, 5, 6, 7, 10]),
    (Call::Write, &[0, 3, 4, 6, 9, 8, 10]),
    (Call::Read, &[0, 17, 11]),
    (Call::Scan, &[0, 17, 11, 1, 2, 3, 4, 5, 6, 7, 14, 12, 13, 10]),
    (Call::List, &[0, 3, 16, 10]),
    (Call::LookUp, &[0, 1, 2, 3, 4, 5, 6, 7, 12, 15, 10]),
];

/// The laws that are tried on what the library answers.
#[derive(Clone, Copy, Debug)]
pub enum Law {
    WrittenIsLookedUp,
    Bounded,
    Reordered,
    OneMore,
    Alone,
    Agreeing,
}

const LAWS: [Law; 6] = [Law::WrittenIsLookedUp, Law::Bounded, Law::Reordered, Law::OneMore, Law::Alone, Law::Agreeing];

#[derive(Default)]
pub struct Tally {
    answered: [[u64; 18]; 7],
    tried: [u64; 6],
}

impl Tally {
    pub fn add(&mut self, call: Call, number: u64) {
        self.answered[call as usize][number as usize] += 1;
    }

    pub fn add_law(&mut self, law: Law) {
        self.tried[law as usize] += 1;
    }

    /// All calls compared.
    pub fn calls(&self) -> u64 {
        self.answered.iter().flatten().sum()
    }

    /// The first answer that a call can give and that never came.
    pub fn missing(&self) -> Option<(Call, usize)> {
        let all = ANSWERS.iter().flat_map(|(call, numbers)| numbers.iter().map(|&number| (*call, number)));
        all.into_iter().find(|&(call, number)| self.answered[call as usize][number] == 0)
    }

    /// A line for each call, and one for the laws.
    pub fn print(&self) {
        for (call, numbers) in ANSWERS {
            let of_call = &self.answered[call as usize];
            let refused: Vec<String> = numbers[1..].iter().map(|&number| format!("{number}: {}", of_call[number])).collect();
            println!("{call:<7} accepted {}, refused {}", of_call[0], refused.join(", "));
        }
        let laws: Vec<String> = LAWS.iter().map(|&law| format!("{law:?} {}", self.tried[law as usize])).collect();
        println!("laws    {}", laws.join(", "));
    }
}
