//! Times of the two sides and of all sizes, taken by turns in one run: what slows the machine for a while slows all of them.

use crate::operations::{Desk, Operation};
use crate::sides::{Side, RATTLE, RUST};
use std::hint::black_box;
use std::time::{Duration, Instant};

/// The sides in the order in which their times are kept.
const SIDES: [&Side; 2] = [&RATTLE, &RUST];

/// Batches are short, so that most of them are over before another program takes the processor away; a call that takes longer is
/// a batch of its own.
const BATCH: Duration = Duration::from_micros(200);

/// How long one size is timed before it is the next one's turn.
const SLICE: Duration = Duration::from_millis(10);

/// How long the batches of one size may take together, and how many there are of each side even so.
#[derive(Clone, Copy, Debug)]
pub struct Budget {
    pub size: Duration,
    pub fewest: usize,
}

/// Some 20 seconds for the whole table.
pub const QUICK: Budget = Budget {
    size: Duration::from_millis(40),
    fewest: 1,
};

/// Less than three minutes for the whole table.
pub const FULL: Budget = Budget {
    size: Duration::from_millis(400),
    fewest: 3,
};

/// Medians of the time of one call, in nanoseconds.
#[derive(Clone, Copy, Debug)]
pub struct Times {
    pub rattle: f64,
    pub rust: f64,
}

impl Times {
    pub fn ratio(self) -> f64 {
        self.rattle / self.rust
    }
}

/// The first call of either side, on buffers of its own, and its time; none where they differ in an answer or in any byte that they
/// leave.
fn first_calls(desk: &Desk, operation: Operation) -> Option<[Duration; 2]> {
    let mut desks = [desk.clone(), desk.clone()];
    let mut calls = SIDES.iter().zip(&mut desks).map(|(side, desk)| {
        let start = Instant::now();
        let answer = desk.perform(operation, side);
        (answer, start.elapsed())
    });
    let ((rattle, time), (rust, other_time)) = (calls.next()?, calls.next()?);
    (rattle == rust && desks[0] == desks[1]).then_some([time, other_time])
}

/// The time of a batch of calls.
fn batch(desk: &mut Desk, operation: Operation, side: &Side, calls: u32) -> Duration {
    let start = Instant::now();
    for _ in 0..calls {
        black_box(desk.perform(black_box(operation), black_box(side)));
    }
    start.elapsed()
}

/// As many calls as fill a batch on either side, found by doubling; this is the warm-up too.
fn calls_in_batch(desk: &mut Desk, operation: Operation) -> u32 {
    let mut calls = 1;
    while SIDES
        .iter()
        .all(|side| batch(desk, operation, side, calls) < BATCH)
    {
        calls *= 2;
    }
    calls
}

fn median(mut times: Vec<f64>) -> f64 {
    times.sort_by(f64::total_cmp);
    times[times.len() / 2]
}

/// One size of a register with its batches so far, and the time that is left for more.
struct Timing {
    desk: Desk,
    operation: Operation,
    calls: u32,
    taken: [Vec<f64>; 2],
    left: Duration,
}

impl Timing {
    /// First calls that took the whole time are batches themselves and need no warm-up.
    fn new(mut desk: Desk, operation: Operation, budget: Budget) -> Option<Timing> {
        let first = first_calls(&desk, operation)?;
        let left = budget.size.saturating_sub(first[0] + first[1]);
        let (calls, taken) = if left.is_zero() {
            (1, first.map(|time| vec![time.as_nanos() as f64]))
        } else {
            let calls = calls_in_batch(&mut desk, operation);
            (calls, [Vec::new(), Vec::new()])
        };
        Some(Timing {
            desk,
            operation,
            calls,
            taken,
            left,
        })
    }

    fn goes_on(&self, budget: Budget) -> bool {
        !self.left.is_zero() || self.taken[0].len() < budget.fewest
    }

    /// Batches for a slice of the time, Rattle and Rust by turns, and by turns which of them is first.
    fn take_slice(&mut self) {
        let start = Instant::now();
        while start.elapsed() < SLICE {
            let turn = self.taken[0].len() % 2;
            for which in [turn, 1 - turn] {
                let time = batch(&mut self.desk, self.operation, SIDES[which], self.calls);
                self.taken[which].push(time.as_nanos() as f64 / f64::from(self.calls));
            }
        }
        self.left = self.left.saturating_sub(start.elapsed());
    }

    fn times(self) -> Times {
        let [rattle, rust] = self.taken.map(median);
        Times { rattle, rust }
    }
}

/// The times of an operation on each desk; none where the two sides do not do the same.
pub fn times(desks: Vec<Desk>, operation: Operation, budget: Budget) -> Option<Vec<Times>> {
    let mut timings = desks
        .into_iter()
        .map(|desk| Timing::new(desk, operation, budget))
        .collect::<Option<Vec<Timing>>>()?;
    while timings.iter().any(|timing| timing.goes_on(budget)) {
        for timing in timings.iter_mut().filter(|timing| timing.goes_on(budget)) {
            timing.take_slice();
        }
    }
    Some(timings.into_iter().map(Timing::times).collect())
}
