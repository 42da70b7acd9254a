//! How one call is made with one of its requests for memory refused.
//!
//! `tools/try_refusals` has one request of a run refused, always of the same number. The program has two arguments: the number of
//! the call, and how many requests are spent right before it. So the refused one becomes the call's first, its second or a later
//! one, and what comes before the call is not refused.

use std::alloc::Global;
use std::env::Env;
use std::process::ExitCode;
use tabled_grid::OutOfMemory;

/// What stands before a call: the requests that are not the call's.
#[derive(Drop)]
pub(crate) struct Turn {
    alloc: Global,
    to_spend: u64,
    spent: u64,
}

impl Turn {
    /// The allocator.
    pub(crate) fn alloc(&self) -> Global {
        self.alloc
    }

    /// Spends requests, until as many are spent as were asked for, or one is refused. It stands right before the call.
    pub(crate) fn spend(&mut self) {
        self.spent = spendable(self.alloc, self.to_spend);
    }
}

/// How many requests are granted, up to this number, before one is refused.
fn spendable(alloc: Global, most: u64) -> u64 {
    for count in 0..most {
        if Box::new(alloc, 0u8).is_err() {
            return count;
        }
    }
    most
}

/// What became of a call.
#[derive(Clone, Copy)]
pub(crate) enum Outcome {
    /// It was made, and what it should do is done.
    Done,
    /// It was refused, and all is as it was.
    AsBefore,
    /// It was refused, and a beginning of it was made, as it may be.
    Begun,
    /// It gave a refusal that is not for memory, as it had to.
    Named,
    /// It was made, and what it should do is not done.
    NotDone,
    /// It was refused, and something changed that may not.
    Changed,
}

impl Outcome {
    /// What became of a call that returned this; whether what it should do is done, and whether all is as it was.
    pub(crate) fn of<T: Drop, E: Drop>(
        returned: Result<T, E>,
        is_done: bool,
        is_as_before: bool,
    ) -> Outcome {
        match returned {
            Ok(_) if is_done => Outcome::Done,
            Ok(_) => Outcome::NotDone,
            Err(_) if is_as_before => Outcome::AsBefore,
            Err(_) => Outcome::Changed,
        }
    }

    /// What became of a call that makes a value and is lent all that it reads: whether the value is the right one.
    pub(crate) fn of_value<E: Drop>(made: Result<bool, E>) -> Outcome {
        match made {
            Ok(true) => Outcome::Done,
            Ok(false) => Outcome::NotDone,
            Err(_) => Outcome::AsBefore,
        }
    }

    /// What the program says.
    fn text(self) -> &'static str {
        match self {
            Outcome::Done => "done",
            Outcome::AsBefore => "refused, as before",
            Outcome::Begun => "refused, a beginning made",
            Outcome::Named => "the fault named",
            Outcome::NotDone => "NOT DONE",
            Outcome::Changed => "REFUSED AND CHANGED",
        }
    }
}

/// A call that is made in its turn. The error says that there was no memory for what stands before it.
pub(crate) type Call = fn(&mut Turn) -> Result<Outcome, OutOfMemory>;

/// A call and its name in `tests/refusable_calls`. Where one is made in several ways, the way follows in brackets.
pub(crate) type Named = (&'static str, Call);

/// The number that an argument of the program is.
fn number(rt: &HostRuntime, place: usize) -> Option<u64> {
    let mut room = [0u8; 32];
    let count = rt.arg(place, &mut room).ok()?;
    str::from_utf8(room.get(..count)?).ok()?.parse::<u64>().ok()
}

/// Makes a call after that many requests. It says what became of it, how many requests were spent before it, and, where that is
/// none, how many are granted after it, before one is refused.
fn make(rt: &HostRuntime, named: Named, to_spend: u64) {
    let mut turn = Turn {
        alloc: rt.alloc(),
        to_spend,
        spent: 0,
    };
    let (name, call) = named;
    let outcome = match call(&mut turn) {
        Ok(outcome) => outcome.text(),
        Err(OutOfMemory) => "NOT BEGUN",
    };
    let left = spendable(turn.alloc, if to_spend == 0 { u64::MAX } else { 0 });
    let _ = println!(rt; "{name}: {outcome}");
    let _ = println!(rt; "spent: {}", turn.spent);
    let _ = println!(rt; "left: {left}");
}

/// The call of this number, counted over all lists.
fn numbered(lists: &[&[Named]], number: u64) -> Option<Named> {
    let mut left = number;
    for list in lists {
        for named in list.iter() {
            if left == 0 {
                return Some(*named);
            }
            left -= 1;
        }
    }
    None
}

/// Makes the call that the arguments ask for.
pub(crate) fn make_asked(rt: &HostRuntime, lists: &[&[Named]]) -> ExitCode {
    let (Some(call), Some(to_spend)) = (number(rt, 1), number(rt, 2)) else {
        return ExitCode::FAILURE;
    };
    match numbered(lists, call) {
        Some(named) => {
            make(rt, named, to_spend);
            ExitCode::SUCCESS
        }
        None => ExitCode::FAILURE,
    }
}
