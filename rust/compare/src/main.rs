//! Holds the proved library to its twin: calls by chance, everything compared, and the laws of the scan tried on what is answered.
//! Ends with status 0 when nothing differs, 1 at the first difference, 2 when it is not asked rightly. A long comparison tells on standard
//! error how far it is.
//!
//! usage: compare SEED CALLS [WORD...]
//!   damaged    only files that something happened to
//!   bare       no guards around what is lent, for a run under a memory checker
//!   round=N    only that round
//!   faults     plants each fault in the twin in turn; CALLS are then enough to find it, or it is said which was not found

mod calls;
mod chance;
mod damage;
mod laws;
mod lent;
mod limits;
mod progress;
mod registers;
mod rounds;
mod tally;
mod texts;

use std::env;
use std::process::ExitCode;

use calls::{Bench, Verdict};
use chance::Chance;
use lent::Guards;
use progress::Progress;
use tally::Tally;
use twin::Fault;

/// With so many calls, every answer that a call can give must have come.
const ENOUGH: u64 = 100_000;
/// A source of chance for the limits, which are no round.
const LIMITS: u64 = u64::MAX;

struct Asked {
    seed: u64,
    calls: u64,
    damaged: bool,
    guards: Guards,
    round: Option<u64>,
    faults: bool,
}

fn main() -> ExitCode {
    let Some(asked) = asked() else {
        eprintln!("usage: compare SEED CALLS [damaged] [bare] [round=N] [faults]");
        return ExitCode::from(2);
    };
    let done = if asked.faults { find_faults(&asked) } else { compare(&asked) };
    match done {
        Ok(()) => ExitCode::SUCCESS,
        Err(said) => {
            println!("{said}");
            ExitCode::FAILURE
        }
    }
}

fn asked() -> Option<Asked> {
    let mut words = env::args().skip(1);
    let seed = words.next()?.parse().ok()?;
    let calls = words.next()?.parse().ok()?;
    let mut asked = Asked { seed, calls, damaged: false, guards: Guards::Some, round: None, faults: false };
    for word in words {
        match (word.as_str(), word.strip_prefix("round=")) {
            (_, Some(round)) => asked.round = Some(round.parse().ok()?),
            ("damaged", _) => asked.damaged = true,
            ("bare", _) => asked.guards = Guards::None,
            ("faults", _) => asked.faults = true,
            _ => return None,
        }
    }
    Some(asked)
}

fn compare(asked: &Asked) -> Verdict<()> {
    let tally = compared(asked, true)?;
    tally.print();
    let all = asked.calls >= ENOUGH && !asked.damaged && asked.round.is_none();
    if let (true, Some((call, number))) = (all, tally.missing()) {
        return Err(format!("{call} never answered {number}"));
    }
    println!("{} calls compared, no difference, seed {}", tally.calls(), asked.seed);
    Ok(())
}

/// Goes on, round after round, until so many calls are compared.
fn compared(asked: &Asked, with_limits: bool) -> Verdict<Tally> {
    let mut bench = Bench { chance: Chance::of_round(asked.seed, LIMITS), guards: asked.guards, tally: Tally::default() };
    if with_limits && !asked.damaged && asked.round.is_none() {
        limits::limits(&mut bench)?;
    }
    let mut round = asked.round.unwrap_or(0);
    let mut progress = Progress::of(asked.calls);
    while bench.tally.calls() < asked.calls {
        bench.chance = Chance::of_round(asked.seed, round);
        let done = if asked.damaged { rounds::damaged_round(&mut bench) } else { rounds::round(&mut bench) };
        done.map_err(|said| format!("seed {} round {round}, after {} calls\n{said}", asked.seed, bench.tally.calls()))?;
        if asked.round.is_some() {
            break;
        }
        progress.tell(bench.tally.calls());
        round += 1;
    }
    Ok(bench.tally)
}

/// Each fault, planted in the twin, must show as a difference.
fn find_faults(asked: &Asked) -> Verdict<()> {
    for fault in Fault::ALL {
        twin::plant(Some(fault));
        let Err(said) = compared(asked, false) else { return Err(format!("the planted fault {fault:?} was not found")) };
        println!("planted {fault:?}: {}", said.lines().take(2).collect::<Vec<_>>().join(": "));
    }
    twin::plant(None);
    println!("{} planted faults found", Fault::ALL.len());
    Ok(())
}
