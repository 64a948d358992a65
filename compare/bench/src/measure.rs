//! The time of a call: the median of many short samples, of which few are
//! interrupted by other work of the machine.

use std::hint::black_box;
use std::time::{Duration, Instant};

use compare::support::calls::Calls;

use crate::cases::Case;

pub struct Effort {
    pub samples: usize,
    /// Each sample repeats the call until it takes at least this long.
    pub sample: Duration,
}

pub const WHOLE: Effort = Effort {
    samples: 801,
    sample: Duration::from_micros(250),
};

pub const QUICK: Effort = Effort {
    samples: 41,
    sample: Duration::from_micros(100),
};

/// Nanoseconds a call.
pub struct Times {
    pub ours: f64,
    pub theirs: f64,
    pub two_pass: Option<f64>,
}

/// A case on one side, with the samples taken so far.
struct Series {
    case: Case,
    calls: Calls,
    repeats: u64,
    nanoseconds: Vec<f64>,
}

/// The times of all cases. Each round takes one sample of every case on all
/// its sides, so that a time in which the machine is slow hits all alike; but some rounds
/// pass over the calls that take long.
pub fn measure(cases: &[Case], effort: &Effort) -> Vec<Times> {
    let mut sides: Vec<Vec<Series>> = cases
        .iter()
        .map(|case| on_all_sides(case, effort.sample))
        .collect();
    for round in 0..effort.samples {
        let due = |series: &&mut Series| round % series.case.call.rounds_apart() == 0;
        let due = sides.iter_mut().flatten().filter(due);
        due.for_each(Series::sample);
    }
    sides.into_iter().map(Times::new).collect()
}

fn on_all_sides(case: &Case, sample: Duration) -> Vec<Series> {
    let sides = case.call.sides().iter();
    sides
        .map(|side| Series::new(case, side.calls(), sample))
        .collect()
}

impl Times {
    /// From the sides of a case, in the order in which its call has them.
    fn new(sides: Vec<Series>) -> Times {
        let mut medians = sides.into_iter().map(|side| median(side.nanoseconds));
        Times {
            ours: medians.next().expect("ours makes every call"),
            theirs: medians.next().expect("compare makes every call"),
            two_pass: medians.next(),
        }
    }
}

impl Series {
    fn new(case: &Case, calls: Calls, sample: Duration) -> Series {
        let mut case = case.clone();
        Series {
            repeats: repeats(&mut case, &calls, sample),
            case,
            calls,
            nanoseconds: Vec::new(),
        }
    }

    /// Adds one sample.
    fn sample(&mut self) {
        let begin = Instant::now();
        repeat(&mut self.case, &self.calls, self.repeats);
        let time = begin.elapsed().as_nanos() as f64;
        self.nanoseconds.push(time / self.repeats as f64);
    }
}

pub fn repeat(case: &mut Case, calls: &Calls, repeats: u64) {
    for _ in 0..repeats {
        black_box(case.run(calls));
    }
}

/// How many calls fill a sample.
fn repeats(case: &mut Case, calls: &Calls, sample: Duration) -> u64 {
    let mut repeats = 1;
    loop {
        let begin = Instant::now();
        repeat(case, calls, repeats);
        if begin.elapsed() >= sample {
            return repeats;
        }
        repeats *= 2;
    }
}

fn median(mut samples: Vec<f64>) -> f64 {
    samples.sort_by(f64::total_cmp);
    samples[samples.len() / 2]
}
