//! How a call is timed: rounds of many calls, ours and the second implementation's in turn, and the best round of each.

use std::hint::black_box;
use std::time::{Duration, Instant};

const ROUNDS: usize = 7;
const ROUND: Duration = Duration::from_millis(20);

/// A call that answers the refusal number.
pub type Call = Box<dyn FnMut() -> u64>;

/// One input to a service, and the two calls on it.
pub struct Row {
    pub input: &'static str,
    pub ours: Call,
    pub second: Call,
}

impl Row {
    /// Nanoseconds a call: ours, then the second implementation's.
    pub fn measure(&mut self) -> (f64, f64) {
        let numbers = ((self.ours)(), (self.second)());
        assert_eq!(numbers, (0, 0), "{}: neither refuses", self.input);
        let (ours_calls, second_calls) = (calls_in_a_round(&mut self.ours), calls_in_a_round(&mut self.second));
        let (mut ours, mut second) = (f64::INFINITY, f64::INFINITY);
        for _ in 0..ROUNDS {
            ours = ours.min(one_round(&mut self.ours, ours_calls));
            second = second.min(one_round(&mut self.second, second_calls));
        }
        (ours, second)
    }
}

/// Nanoseconds a call over so many calls.
fn one_round(call: &mut Call, calls: u32) -> f64 {
    let start = Instant::now();
    for _ in 0..calls {
        black_box(call());
    }
    start.elapsed().as_nanos() as f64 / f64::from(calls)
}

/// How many calls fill a round, found by doubling.
fn calls_in_a_round(call: &mut Call) -> u32 {
    let mut calls = 1;
    loop {
        let start = Instant::now();
        one_round(call, calls);
        if start.elapsed() * 2 >= ROUND {
            return calls;
        }
        calls *= 2;
    }
}
