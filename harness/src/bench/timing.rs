//! The time of one call by each side: the same call, in turns, in one run.

use std::fmt;
use std::hint::black_box;
use std::ops::RangeInclusive;
use std::time::{Duration, Instant};

use crate::progress;
use crate::side::{Side, MODEL, PROVED};

/// How long a batch of the slowest side's calls takes at least. It is short, so that few batches are
/// interrupted by other work of the machine, and the median is one of the others.
const BATCH: Duration = Duration::from_micros(200);
/// Each side is timed so often, in turns, while the time lasts.
const ROUNDS: RangeInclusive<usize> = 9..=201;
const TIME: Duration = Duration::from_millis(400);

/// The time of one call.
#[derive(Clone, Copy, Debug)]
pub struct Nanoseconds(pub f64);

/// The times of the same call by both.
#[derive(Clone, Copy, Debug)]
pub struct Times {
    pub proved: Nanoseconds,
    pub model: Nanoseconds,
}

impl Times {
    /// The model's time by the proved function's.
    pub fn ratio(&self) -> f64 {
        self.model.0 / self.proved.0
    }

    /// The time of one of so many equal parts.
    pub fn per(&self, parts: usize) -> Times {
        Times {
            proved: self.proved.per(parts),
            model: self.model.per(parts),
        }
    }
}

impl Nanoseconds {
    pub fn per(self, parts: usize) -> Nanoseconds {
        Nanoseconds(self.0 / parts as f64)
    }
}

/// In the unit that leaves few digits.
impl fmt::Display for Nanoseconds {
    fn fmt(&self, f: &mut fmt::Formatter) -> fmt::Result {
        let text = match self.0 {
            time if time < 1e3 => format!("{time:.2} ns"),
            time if time < 1e6 => format!("{:.2} µs", time / 1e3),
            time => format!("{:.2} ms", time / 1e6),
        };
        f.pad(&text)
    }
}

/// Times a call by both sides.
pub fn time<T>(call: impl FnMut(&Side) -> T) -> Times {
    let [proved, model] = in_turns(&[PROVED, MODEL], call);
    Times { proved, model }
}

/// Times a call by each, in turns. The last is the slowest: its batches are long enough.
pub fn in_turns<S, T, const N: usize>(
    sides: &[S; N],
    mut call: impl FnMut(&S) -> T,
) -> [Nanoseconds; N] {
    let mut calls = 1;
    while batch(calls, &sides[N - 1], &mut call) < BATCH {
        calls *= 2;
    }
    let mut times = [(); N].map(|()| Vec::new());
    let start = Instant::now();
    let mut rounds = 0;
    while rounds < *ROUNDS.start() || rounds < *ROUNDS.end() && start.elapsed() < TIME {
        for (times, side) in times.iter_mut().zip(sides) {
            times.push(batch(calls, side, &mut call));
        }
        rounds += 1;
    }
    progress::step();
    times.map(|times| Nanoseconds(median(times).as_nanos() as f64).per(calls))
}

/// The time of so many calls.
fn batch<S, T>(calls: usize, side: &S, call: &mut impl FnMut(&S) -> T) -> Duration {
    let side = black_box(side);
    let start = Instant::now();
    for _ in 0..calls {
        black_box(call(side));
    }
    start.elapsed()
}

fn median(mut times: Vec<Duration>) -> Duration {
    times.sort();
    times[times.len() / 2]
}

#[cfg(test)]
mod tests {
    use super::*;

    #[test]
    fn the_median_is_in_the_middle() {
        let times = [9, 1, 5, 2, 7].map(Duration::from_secs);
        assert_eq!(median(times.to_vec()), Duration::from_secs(5));
    }

    #[test]
    fn times_have_units() {
        let texts = [0.394, 87.9, 1443.6, 29_705_976.0].map(|time| Nanoseconds(time).to_string());
        assert_eq!(texts, ["0.39 ns", "87.90 ns", "1.44 µs", "29.71 ms"]);
        let times = Times {
            proved: Nanoseconds(10.0),
            model: Nanoseconds(25.0),
        };
        assert_eq!(times.ratio(), 2.5);
        assert_eq!(times.per(5).ratio(), 2.5);
        assert_eq!(times.per(5).proved.to_string(), "2.00 ns");
    }
}
