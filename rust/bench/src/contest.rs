//! Times contestants against each other: in turns, so that whatever else the machine does meets all of them.

use std::hint::black_box;
use std::time::{Duration, Instant};

/// Does its work so many times, with a lent buffer.
pub type Contestant<'a> = Box<dyn Fn(&mut [u8], u64) + 'a>;

/// A contestant of a call. The loop is inside, so that choosing the contestant costs nothing that is measured.
pub fn contestant<'a, T>(call: impl Fn(&mut [u8]) -> T + 'a) -> Contestant<'a> {
    Box::new(move |out, times| {
        for _ in 0..times {
            black_box(call(black_box(&mut *out)));
        }
    })
}

/// What came out: nanoseconds for a call of each contestant, and the first one's time over that of each.
pub struct Outcome {
    pub nanoseconds: Vec<f64>,
    pub ratios: Vec<f64>,
}

/// A turn is to last this long, so that the clock's own cost is small beside it.
const TURN: Duration = Duration::from_micros(40);

/// A contest goes on for this long, and for so many rounds at least.
const CONTEST: Duration = Duration::from_millis(300);
const LEAST_ROUNDS: usize = 15;

/// Runs rounds in which each contestant has a turn, a different one first each time. Times are medians over the rounds;
/// ratios are medians of the ratios within a round. All of them write to one buffer.
pub fn contest(contestants: &[Contestant], out: &mut [u8]) -> Outcome {
    let times: Vec<u64> = contestants.iter().map(|one| calls_in_a_turn(one, out)).collect();
    let mut rounds: Vec<Vec<f64>> = Vec::new();
    let start = Instant::now();
    while rounds.len() < LEAST_ROUNDS || start.elapsed() < CONTEST {
        let first = rounds.len();
        rounds.push(round(contestants, &times, first, out));
    }
    let of_each = |value: &dyn Fn(&Vec<f64>, usize) -> f64| {
        (0..times.len())
            .map(|i| median(rounds.iter().map(|round| value(round, i)).collect()))
            .collect()
    };
    Outcome {
        nanoseconds: of_each(&|round, i| round[i]),
        ratios: of_each(&|round, i| round[0] / round[i]),
    }
}

/// How many calls make a turn, found by doubling.
fn calls_in_a_turn(contestant: &Contestant, out: &mut [u8]) -> u64 {
    let mut times = 1;
    loop {
        let start = Instant::now();
        contestant(out, times);
        if start.elapsed() >= TURN {
            return times;
        }
        times *= 2;
    }
}

/// Nanoseconds for a call of each contestant, in one turn each.
fn round(contestants: &[Contestant], times: &[u64], first: usize, out: &mut [u8]) -> Vec<f64> {
    let count = contestants.len();
    let mut taken = vec![0.0; count];
    for turn in 0..count {
        let i = (first + turn) % count;
        let start = Instant::now();
        contestants[i](out, times[i]);
        taken[i] = start.elapsed().as_nanos() as f64 / times[i] as f64;
    }
    taken
}

fn median(mut values: Vec<f64>) -> f64 {
    values.sort_by(f64::total_cmp);
    values[values.len() / 2]
}
