//! Times of several things in one run, taken in turns so that noise strikes all of them alike.

use std::time::{Duration, Instant};

/// How long one turn of one thing should take.
const TURN: Duration = Duration::from_micros(1_500);

/// The times of one thing, one for each round.
pub struct Times(Vec<f64>);

impl Times {
    /// The median time, in seconds.
    pub fn median(&self) -> f64 {
        quartiles(self.0.clone())[1]
    }

    /// The quartiles of the ratio to another thing, taken round by round.
    pub fn ratio(&self, other: &Times) -> [f64; 3] {
        let ratios = self.0.iter().zip(&other.0).map(|(mine, its)| mine / its);
        quartiles(ratios.collect())
    }
}

/// Lower quartile, median and upper quartile.
fn quartiles(mut numbers: Vec<f64>) -> [f64; 3] {
    numbers.sort_by(f64::total_cmp);
    [1, 2, 3].map(|quarter| numbers[(numbers.len() - 1) * quarter / 4])
}

/// Measures things in turns, for so many rounds.
pub fn measure(things: &mut [Box<dyn FnMut() + '_>], rounds: usize) -> Vec<Times> {
    let turns: Vec<u32> = things.iter_mut().map(|thing| repeats(thing)).collect();
    let mut times: Vec<Times> = things.iter().map(|_| Times(Vec::new())).collect();
    for _ in 0..rounds {
        for ((thing, &turns), times) in things.iter_mut().zip(&turns).zip(&mut times) {
            let start = Instant::now();
            for _ in 0..turns {
                thing();
            }
            times
                .0
                .push(start.elapsed().as_secs_f64() / f64::from(turns));
        }
    }
    times
}

/// How often a thing is done in a turn.
fn repeats(thing: &mut dyn FnMut()) -> u32 {
    let mut turns = 1;
    loop {
        let start = Instant::now();
        for _ in 0..turns {
            thing();
        }
        let taken = start.elapsed();
        if taken >= TURN / 4 || turns >= 1 << 16 {
            let whole = TURN.as_secs_f64() / taken.as_secs_f64() * f64::from(turns);
            return (whole as u32).max(1);
        }
        turns *= 2;
    }
}
