//! The time that calls take.

use std::time::{Duration, Instant};

/// Rounds, of which medians are taken.
pub const ROUNDS: usize = 501;
/// How long a sample takes at least: short beside what a scheduler gives to one process, so that most
/// rounds are undisturbed.
pub const SAMPLE: Duration = Duration::from_micros(200);
/// Samples that have to be long enough before any is taken.
const TRIALS: usize = 5;

/// Makes a call so often and tells how long that took.
pub type Repeated<'a> = Box<dyn FnMut(u32) -> Duration + 'a>;

/// What several subjects take.
pub struct Measured<const N: usize> {
    /// Nanoseconds a call: the median of the rounds.
    pub times: [f64; N],
    /// The first one's time to each one's: the median of the rounds' ratios.
    pub ratios: [f64; N],
}

/// A call that tells whether its verdict is the one that is due. It goes through a side's pointer,
/// of which the compiler knows nothing, so that no call is dropped or moved.
pub fn repeated<'a>(mut call: impl FnMut() -> bool + 'a) -> Repeated<'a> {
    Box::new(move |calls| timed(calls, &mut call))
}

/// How long so many calls take.
pub fn timed(calls: u32, mut call: impl FnMut() -> bool) -> Duration {
    let start = Instant::now();
    let wrong = (0..calls).filter(|_| !call()).count();
    let time = start.elapsed();
    assert_eq!(wrong, 0, "every verdict is the one that is due");
    time
}

/// Measures the subjects in rounds, each of them once in a round, so that all meet the same
/// disturbances.
pub fn measured<const N: usize>(mut subjects: [Repeated; N]) -> Measured<N> {
    let calls: Vec<u32> = subjects.iter_mut().map(enough).collect();
    let mut rounds = Vec::new();
    for _ in 0..ROUNDS {
        let mut round = [0.0; N];
        for (number, subject) in subjects.iter_mut().enumerate() {
            let calls = calls[number];
            round[number] = subject(calls).as_secs_f64() * 1e9 / f64::from(calls);
        }
        rounds.push(round);
    }
    let (mut times, mut ratios) = ([0.0; N], [0.0; N]);
    for number in 0..N {
        times[number] = median(rounds.iter().map(|round| round[number]));
        ratios[number] = median(rounds.iter().map(|round| round[0] / round[number]));
    }
    Measured { times, ratios }
}

/// How many calls make a sample. It has to be long enough several times: once may be a disturbance.
fn enough(subject: &mut Repeated) -> u32 {
    let mut calls = 1;
    while (0..TRIALS).any(|_| subject(calls) < SAMPLE) {
        calls *= 2;
    }
    calls
}

/// The middle one of the values, or the higher of two.
pub fn median(values: impl Iterator<Item = f64>) -> f64 {
    let mut values: Vec<f64> = values.collect();
    values.sort_unstable_by(f64::total_cmp);
    values[values.len() / 2]
}

#[cfg(test)]
mod tests {
    use super::*;

    #[test]
    fn medians() {
        assert_eq!(median([3.0, 1.0, 2.0].into_iter()), 2.0);
        assert_eq!(median([5.0].into_iter()), 5.0);
        assert_eq!(median([5.0, 4.0].into_iter()), 5.0);
    }

    #[test]
    fn rounds() {
        let mut late = Duration::ZERO;
        let steady = |calls| Duration::from_micros(300) * calls;
        let disturbed = |calls| {
            late += Duration::from_micros(1);
            Duration::from_micros(600) * calls + late / 1_000
        };
        let Measured { times, ratios } = measured([Box::new(steady), Box::new(disturbed)]);
        assert!((times[0] - 300_000.0).abs() < 1.0 && (times[1] - 600_000.0).abs() < 1_000.0);
        assert!(ratios[0] == 1.0 && (ratios[1] - 0.5).abs() < 0.01);
    }
}
