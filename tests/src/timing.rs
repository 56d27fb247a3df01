//! Medians of times.

use std::hint::black_box;
use std::time::{Duration, Instant};

pub type Call<'c> = Box<dyn FnMut() + 'c>;

/// The call made on each item in turn.
pub fn each<'i, I, A>(items: &'i [I], mut call: impl FnMut(&I) -> A + 'i) -> Call<'i> {
    Box::new(move || {
        for item in items {
            black_box(call(black_box(item)));
        }
    })
}

/// The median microseconds that some calls take for one of so many items.
pub fn microseconds(repetitions: usize, items: usize, calls: Vec<Call>) -> Vec<f64> {
    let medians = medians(repetitions, calls).into_iter();
    medians
        .map(|time| time.as_secs_f64() * 1e6 / items as f64)
        .collect()
}

/// The median times of some calls, each made once in every repetition, so that whatever else the
/// machine does meets all alike.
pub fn medians(repetitions: usize, mut calls: Vec<Call>) -> Vec<Duration> {
    let warm_up = repetitions / 10;
    let mut times = vec![Vec::with_capacity(repetitions); calls.len()];
    for repetition in 0..warm_up + repetitions {
        for (call, times) in calls.iter_mut().zip(&mut times) {
            let start = Instant::now();
            call();
            let time = start.elapsed();
            if repetition >= warm_up {
                times.push(time);
            }
        }
    }
    times.into_iter().map(median).collect()
}

pub fn median<T: Ord + Copy>(mut items: Vec<T>) -> T {
    items.sort_unstable();
    items[items.len() / 2]
}
