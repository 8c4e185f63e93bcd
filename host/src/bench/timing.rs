//! Times of three sides over the same books, taken in turn, and what they come to: medians over the rounds, and ratios
//! within a round, so that what else the machine does counts little.

use std::ffi::{c_int, c_long};

/// A measured stretch takes about so many nanoseconds, by repetition where one run is shorter.
const STRETCH: f64 = 200_000.0;

#[repr(C)]
struct Reading {
    seconds: i64,
    nanoseconds: c_long,
}

unsafe extern "C" {
    fn clock_gettime(clock: c_int, reading: *mut Reading) -> c_int;
}

/// Linux's number for the clock of a thread's own processor time.
const THREAD_TIME: c_int = 3;

/// The processor time that this thread has had, in nanoseconds. What other work the machine has doesn't count.
fn now() -> f64 {
    let mut reading = Reading {
        seconds: 0,
        nanoseconds: 0,
    };
    // SAFETY: the reading is as the system writes it on 64-bit machines.
    let failed = unsafe { clock_gettime(THREAD_TIME, &mut reading) };
    assert_eq!(failed, 0, "a thread has a clock");
    reading.seconds as f64 * 1e9 + reading.nanoseconds as f64
}

/// The sides, in the order of their times everywhere: the proved code, the host, the anchor.
pub const SIDES: [&str; 3] = ["proved", "host", "lean"];
pub const PROVED: usize = 0;
pub const HOST: usize = 1;
pub const LEAN: usize = 2;

/// The times of one book in nanoseconds, for each side a round each.
pub type Times = [Vec<f64>; 3];

/// What the times of some books come to.
#[derive(Debug, PartialEq)]
pub struct Outcome {
    /// Of each side, the median over the rounds of the mean time of a book, in nanoseconds.
    pub times: [f64; 3],
    /// The ratio of the sums, proved to host and proved to lean: lower quartile, median and upper quartile over the
    /// rounds.
    pub to_host: [f64; 3],
    pub to_lean: [f64; 3],
    /// The books' own ratios of medians, proved to host: the best, the worst, and which book that is.
    pub best: f64,
    pub worst: (f64, usize),
}

/// Runs all sides over each of so many books in every round. Which side goes first changes from round to round, and
/// which one it follows, so that none always finds what the same other has left.
pub fn measure(books: usize, rounds: usize, mut sides: [&mut dyn FnMut(usize); 3]) -> Vec<Times> {
    let mut all: Vec<Times> = Vec::with_capacity(books);
    let mut runs = Vec::with_capacity(books);
    for book in 0..books {
        // Once to warm up, once to learn how long it takes.
        runs.push([0, 1, 2].map(|side| {
            stretch(1, || sides[side](book));
            repeats(stretch(1, || sides[side](book)))
        }));
        all.push([0, 1, 2].map(|_| Vec::with_capacity(rounds)));
    }
    for round in 0..rounds {
        for (book, times) in all.iter_mut().enumerate() {
            for side in order(round) {
                let runs = runs[book][side];
                // What the others have left in the caches, and freed for the next to tidy up, is no cost of a short run.
                if runs > 1 {
                    sides[side](book);
                }
                times[side].push(stretch(runs, || sides[side](book)));
            }
        }
    }
    all
}

/// The order of the sides in a round: every order comes up in six.
fn order(round: usize) -> [usize; 3] {
    let turned = [0, 1, 2].map(|place| (place + round) % 3);
    match round / 3 % 2 {
        0 => turned,
        _ => [turned[0], turned[2], turned[1]],
    }
}

/// How often a run that takes so many nanoseconds is repeated.
pub fn repeats(time: f64) -> usize {
    (STRETCH / time.max(1.0)).ceil().max(1.0) as usize
}

/// The mean time of a run, in nanoseconds.
pub fn stretch(runs: usize, mut run: impl FnMut()) -> f64 {
    let start = now();
    for _ in 0..runs {
        run();
    }
    (now() - start) / runs as f64
}

/// What the times of at least one book come to.
pub fn outcome(books: &[Times]) -> Outcome {
    let rounds = books[0][PROVED].len();
    let sums = [PROVED, HOST, LEAN].map(|side| -> Vec<f64> {
        let sum = |round: usize| books.iter().map(|times| times[side][round]).sum::<f64>();
        (0..rounds).map(sum).collect()
    });
    let proved_to = |side: usize| -> [f64; 3] {
        let ratios: Vec<f64> = sums[PROVED].iter().zip(&sums[side]).map(|(p, s)| p / s).collect();
        quartiles(&ratios)
    };
    let own = |times: &Times| median(&times[PROVED]) / median(&times[HOST]);
    let own: Vec<f64> = books.iter().map(own).collect();
    let worst = (0..own.len()).max_by(|one, other| own[*one].total_cmp(&own[*other]));
    let worst = worst.expect("at least one book");
    Outcome {
        times: [PROVED, HOST, LEAN].map(|side| median(&sums[side]) / books.len() as f64),
        to_host: proved_to(HOST),
        to_lean: proved_to(LEAN),
        best: own.iter().copied().fold(f64::INFINITY, f64::min),
        worst: (own[worst], worst),
    }
}

/// The lower quartile, the median and the upper quartile.
pub fn quartiles(values: &[f64]) -> [f64; 3] {
    [0.25, 0.5, 0.75].map(|share| quantile(values, share))
}

pub fn median(values: &[f64]) -> f64 {
    quantile(values, 0.5)
}

/// The value below which that share of at least one value lies, between two values in proportion.
fn quantile(values: &[f64], share: f64) -> f64 {
    let mut sorted = values.to_vec();
    sorted.sort_by(f64::total_cmp);
    let place = share * (sorted.len() - 1) as f64;
    let (below, above) = (place.floor() as usize, place.ceil() as usize);
    sorted[below] + (sorted[above] - sorted[below]) * (place - below as f64)
}

#[cfg(test)]
mod tests {
    use super::*;
    use std::collections::HashSet;

    #[test]
    fn medians_and_quartiles() {
        assert_eq!(median(&[3.0]), 3.0);
        assert_eq!(median(&[5.0, 1.0, 3.0]), 3.0);
        assert_eq!(median(&[4.0, 1.0, 3.0, 2.0]), 2.5);
        let five = [50.0, 20.0, 40.0, 10.0, 30.0];
        assert_eq!(quantile(&five, 0.25), 20.0);
        assert_eq!(quantile(&five, 0.75), 40.0);
    }

    #[test]
    fn outcomes() {
        let books = [
            [vec![1.0, 2.0, 3.0], vec![2.0, 2.0, 2.0], vec![0.5, 0.5, 0.5]],
            [vec![5.0, 6.0, 7.0], vec![2.0, 2.0, 2.0], vec![0.5, 0.5, 0.5]],
        ];
        let expected = Outcome {
            times: [4.0, 2.0, 0.5],
            to_host: [1.75, 2.0, 2.25],
            to_lean: [7.0, 8.0, 9.0],
            best: 1.0,
            worst: (3.0, 1),
        };
        assert_eq!(outcome(&books), expected);
    }

    #[test]
    fn every_round_runs_all_sides() {
        let (mut proved, mut host, mut lean) = ([0; 2], [0; 2], [0; 2]);
        let sides: [&mut dyn FnMut(usize); 3] = [
            &mut |book| proved[book] += 1,
            &mut |book| host[book] += 1,
            &mut |book| lean[book] += 1,
        ];
        let times = measure(2, 3, sides);
        assert!([proved, host, lean].as_flattened().iter().all(|runs| *runs >= 5));
        assert_eq!(times.len(), 2);
        assert!(times.iter().flatten().all(|times| times.len() == 3));
    }

    #[test]
    fn every_order_comes_up() {
        let orders: HashSet<[usize; 3]> = (0..6).map(order).collect();
        assert_eq!(orders.len(), 6);
        for order in orders {
            assert_eq!(HashSet::from(order), HashSet::from([0, 1, 2]));
        }
    }
}
