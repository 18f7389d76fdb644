//! The time of calls: the sides take turns, and of each the best round counts.

use crate::calls::{Answer, Results};
use crate::model::Second;
use crate::pair::Pair;
use crate::proved::Proved;
use std::fmt::Debug;
use std::hint::black_box;
use std::time::{Duration, Instant};

/// Nanoseconds per call of each side, in the best of its rounds.
#[derive(Clone, Copy)]
pub struct Times {
    pub proved: f64,
    pub second: f64,
}

impl Times {
    /// The better of two for each side.
    pub fn best(self, other: Times) -> Times {
        Times { proved: self.proved.min(other.proved), second: self.second.min(other.second) }
    }
}

/// Rounds of a row in a sweep through all rows.
pub const ROUNDS: usize = 10;

/// Checks that both sides accept the calls, give the same answers and leave the same boards, times
/// them, then checks what the rounds left behind and the answers again. A round makes the calls of
/// the list so many times over.
pub fn timed<A: Debug, R: Results, S: Into<Answer>>(
    pair: &mut Pair,
    arguments: &[A],
    times_over: usize,
    proved: impl Fn(&mut Proved, &A, &mut R) -> i32,
    second: impl Fn(&mut Second, &A) -> S,
) -> Result<Times, String> {
    pair.accepted(arguments, &proved, &second)?;
    pair.same_state()?;
    let returned = |side: &mut Second, argument: &A, _: &mut ()| second(side, argument);
    let mut best = [Duration::MAX; 2];
    // Who goes first changes from round to round.
    let turns = (0..=ROUNDS).flat_map(|round| [(round, round % 2), (round, (round + 1) % 2)]);
    for (round, side) in turns {
        let took = match side {
            0 => pass(&mut pair.proved, arguments, times_over, &proved),
            _ => pass(&mut pair.second, arguments, times_over, &returned),
        };
        // The first round warms the buffers and does not count.
        if round > 0 {
            best[side] = best[side].min(took);
        }
    }
    pair.same_state()?;
    pair.accepted(arguments, &proved, &second)?;
    let calls = arguments.len() * times_over;
    let [proved, second] = best.map(|took| took.as_nanos() as f64 / calls as f64);
    Ok(Times { proved, second })
}

/// Nanoseconds per turn of the loop that is around every call.
pub fn loop_alone<A>(arguments: &[A]) -> f64 {
    let nothing = |_: &mut (), _: &A, _: &mut ()| 0;
    let passes = (0..ROUNDS).map(|_| pass(&mut (), arguments, 1, nothing));
    let best = passes.min().unwrap_or_default();
    best.as_nanos() as f64 / arguments.len() as f64
}

/// The time of the calls of a list, so many times over. The compiler knows neither which board
/// and argument a call is given nor what becomes of what it returns or leaves in lent memory.
/// Both are taken where they stand: nothing is cleared or copied from call to call.
#[inline(never)]
fn pass<S, A, R: Default, N>(
    side: &mut S,
    arguments: &[A],
    times_over: usize,
    call: impl Fn(&mut S, &A, &mut R) -> N,
) -> Duration {
    let mut results = R::default();
    let start = Instant::now();
    for _ in 0..times_over {
        for argument in arguments {
            black_box(&call(black_box(&mut *side), black_box(argument), &mut results));
        }
    }
    let took = start.elapsed();
    black_box(&results);
    took
}

#[cfg(test)]
mod tests {
    use super::*;
    use crate::boards::b1;
    use crate::calls::{ConfigCall, LONG};
    use std::cell::Cell;

    /// A wrong write in the last round alone is seen, though all answers are the same.
    #[test]
    fn what_a_round_leaves_behind() {
        let board = b1();
        let mut pair = Pair::new(board.cells());
        pair.accepted(&board.images(), Proved::load, Second::load).unwrap();
        let made = Cell::new(0);
        let wrong = |second: &mut Second, call: &ConfigCall| {
            made.set(made.get() + 1);
            // It is made once before the rounds, then once in each, the uncounted one included.
            let last = made.get() == 1 + 1 + ROUNDS;
            second.write_config(&ConfigCall { value: call.value + u32::from(last), ..*call })
        };
        let call = ConfigCall { width: LONG, handle: 2, register: 0x3C, value: 6 };
        assert!(timed(&mut pair, &[call], 1, Proved::write_config, wrong).is_err());
    }
}
