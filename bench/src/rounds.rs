//! Times in interleaved rounds, and the medians of their ratios.

use std::time::Duration;

extern "C" {
    fn thread_nanoseconds() -> u64;
    fn children_nanoseconds() -> u64;
}

/// How long the calls of one sample take, about.
const SAMPLE: Duration = Duration::from_millis(1);

/// Something that is called over and over.
pub type Call<'a> = Box<dyn FnMut() + 'a>;

/// The nanoseconds of each call in each round: `times[call][round]`.
pub struct Times(Vec<Vec<f64>>);

/// A median, with the quartiles round it.
pub struct Spread {
    pub low: f64,
    pub median: f64,
    pub high: f64,
}

/// A CPU time so far.
type Clock = fn() -> Duration;

/// Times the calls in rounds, by the CPU time of this thread. In each round every call has its turn, so that
/// what slows the machine down slows all.
pub fn times(calls: &mut [Call], rounds: usize) -> Times {
    times_by(thread, calls, rounds)
}

/// Times what the calls run and wait for, by its CPU time.
pub fn child_times(calls: &mut [Call], rounds: usize) -> Times {
    times_by(children, calls, rounds)
}

fn times_by(clock: Clock, calls: &mut [Call], rounds: usize) -> Times {
    let counts: Vec<u32> = calls.iter_mut().map(|call| count(clock, call)).collect();
    let mut times = vec![Vec::with_capacity(rounds); calls.len()];
    for _ in 0..rounds {
        for ((call, count), times) in calls.iter_mut().zip(&counts).zip(&mut times) {
            times.push(sample(clock, call, *count).as_nanos() as f64 / f64::from(*count));
        }
    }
    Times(times)
}

/// How often to call for a sample.
fn count(clock: Clock, call: &mut Call) -> u32 {
    let mut count = 1;
    while sample(clock, call, count) < SAMPLE && count < 1 << 24 {
        count *= 2;
    }
    count
}

/// How long so many calls take, behind one that is not timed: what was called before a sample makes no
/// difference.
fn sample(clock: Clock, call: &mut Call, count: u32) -> Duration {
    call();
    let start = clock();
    for _ in 0..count {
        call();
    }
    clock() - start
}

fn thread() -> Duration {
    // SAFETY: the function takes nothing and only asks the system for a time.
    Duration::from_nanos(unsafe { thread_nanoseconds() })
}

fn children() -> Duration {
    // SAFETY: the function takes nothing and only asks the system for a time.
    Duration::from_nanos(unsafe { children_nanoseconds() })
}

impl Times {
    /// The times for one of the things that each call does, which are so many.
    pub fn per(mut self, things: impl Fn(usize) -> usize) -> Self {
        for (call, times) in self.0.iter_mut().enumerate() {
            times.iter_mut().for_each(|time| *time /= things(call) as f64);
        }
        self
    }

    /// The nanoseconds of a call.
    pub fn of(&self, call: usize) -> Spread {
        spread(self.0[call].clone())
    }

    /// How many times as long one call takes as another, round by round.
    pub fn ratio(&self, call: usize, other: usize) -> Spread {
        self.each(|time| time(call) / time(other))
    }

    /// The share of the first call's time by which it is longer than the second's, round by round.
    pub fn share(&self, [call, other]: [usize; 2]) -> Spread {
        self.each(|time| (time(call) - time(other)) / time(call))
    }

    /// How many times as much two calls differ as two others, round by round.
    pub fn ratio_of_differences(&self, calls: [usize; 2], others: [usize; 2]) -> Spread {
        self.each(|time| (time(calls[0]) - time(calls[1])) / (time(others[0]) - time(others[1])))
    }

    /// A number for each round, from the times of the calls in it.
    fn each(&self, number: impl Fn(&dyn Fn(usize) -> f64) -> f64) -> Spread {
        let rounds = self.0.first().map_or(0, Vec::len);
        spread((0..rounds).map(|round| number(&|call| self.0[call][round])).collect())
    }
}

fn spread(mut numbers: Vec<f64>) -> Spread {
    numbers.sort_by(f64::total_cmp);
    let at = |share: usize| numbers[(numbers.len() - 1) * share / 4];
    Spread { low: at(1), median: at(2), high: at(3) }
}

#[cfg(test)]
mod tests {
    use super::Times;

    #[test]
    fn numbers_are_taken_round_by_round() {
        let times = Times(vec![vec![1.0, 20.0, 3.0, 8.0, 10.0], vec![1.0, 10.0, 1.0, 1.0, 1.0]]);
        let ratio = times.ratio(0, 1);
        assert_eq!((ratio.low, ratio.median, ratio.high), (2.0, 3.0, 8.0));
        assert_eq!(times.of(0).median, 8.0);
        let times = Times(vec![vec![8.0, 9.0, 20.0], vec![6.0, 3.0, 10.0], vec![5.0; 3], vec![1.0; 3]]);
        assert_eq!(times.share([0, 1]).median, 0.5);
        assert_eq!(times.ratio_of_differences([0, 1], [2, 3]).median, 1.5);
        assert_eq!(times.per(|call| call + 1).of(1).median, 3.0);
    }
}
