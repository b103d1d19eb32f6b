//! Times in interleaved rounds.

use std::fmt;
use std::time::{Duration, Instant};

/// The rounds' minimum and median, in nanoseconds an operation.
#[derive(Clone, Copy)]
pub struct Times {
    pub least: f64,
    pub median: f64,
}

/// One way to do a piece of work.
pub struct Side<'a> {
    /// What the work leaves or answers, so that sides can be compared before they are timed.
    pub outcome: Vec<u8>,
    /// Does the work once or some times over, and answers the nanoseconds an operation took.
    pub round: Box<dyn FnMut() -> f64 + 'a>,
}

/// A median over fewer rounds says little.
const ROUNDS_LEAST: usize = 31;

/// Nanoseconds for each of so many operations.
pub fn timed(operations: usize, work: impl FnOnce()) -> f64 {
    let start = Instant::now();
    work();
    start.elapsed().as_nanos() as f64 / operations as f64
}

/// Runs the sides in turn, round after round, so that what disturbs one disturbs all; each round
/// begins with another side.
pub fn interleave<const N: usize>(budget: Duration, sides: [&mut Side; N]) -> [Times; N] {
    let mut samples: [Vec<f64>; N] = std::array::from_fn(|_| Vec::new());
    let start = Instant::now();
    for round in 0.. {
        if round >= ROUNDS_LEAST && start.elapsed() >= budget {
            break;
        }
        for turn in 0..N {
            let side = (round + turn) % N;
            samples[side].push((sides[side].round)());
        }
    }
    samples.map(|mut samples| {
        samples.sort_by(f64::total_cmp);
        Times {
            least: samples[0],
            median: samples[samples.len() / 2],
        }
    })
}

/// A time in the unit that suits it.
pub struct Nanoseconds(pub f64);

impl fmt::Display for Nanoseconds {
    fn fmt(&self, f: &mut fmt::Formatter<'_>) -> fmt::Result {
        let (value, unit) = match self.0 {
            ns if ns < 1e3 => (ns, "ns"),
            ns if ns < 1e6 => (ns / 1e3, "µs"),
            ns => (ns / 1e6, "ms"),
        };
        let places = match value {
            value if value < 10.0 => 2,
            value if value < 100.0 => 1,
            _ => 0,
        };
        write!(f, "{value:.places$} {unit}")
    }
}

impl fmt::Display for Times {
    fn fmt(&self, f: &mut fmt::Formatter<'_>) -> fmt::Result {
        write!(
            f,
            "{} / {}",
            Nanoseconds(self.least),
            Nanoseconds(self.median)
        )
    }
}
