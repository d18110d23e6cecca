//! One call, timed many times from the same words: the median, without the time that the clock itself takes. Many calls
//! together: the least time.

use std::hint::black_box;
use std::time::Instant;

pub fn median(mut times: Vec<u128>) -> u128 {
    times.sort_unstable();
    times[times.len() / 2]
}

/// Nanoseconds of `call` on a copy of `before`. The copy is made anew, and is not timed. `call` says whether it did
/// what is to be timed.
pub fn nanoseconds(runs: usize, before: &[u64], call: impl Fn(&mut [u64]) -> bool) -> f64 {
    let mut words = before.to_vec();
    let mut clock = Vec::with_capacity(runs);
    let mut times = Vec::with_capacity(runs);
    for _ in 0..runs {
        words.copy_from_slice(before);
        let start = Instant::now();
        clock.push(start.elapsed().as_nanos());
        let start = Instant::now();
        let done = call(black_box(&mut words));
        times.push(start.elapsed().as_nanos());
        assert!(done, "the call timed had another reply");
    }
    median(times).saturating_sub(median(clock)) as f64
}

/// The least times, in nanoseconds, of `N` ways to do the same; `time` runs the way of a number once. The ways take
/// turns: what else the machine does only adds to a time, and slows all ways alike.
pub fn least<const N: usize>(runs: usize, mut time: impl FnMut(usize) -> f64) -> [f64; N] {
    least_parts(runs, |way| [time(way)]).map(|[time]| time)
}

/// The same of ways with `M` parts that are timed one by one.
pub fn least_parts<const N: usize, const M: usize>(
    runs: usize,
    mut time: impl FnMut(usize) -> [f64; M],
) -> [[f64; M]; N] {
    let mut times = [[f64::INFINITY; M]; N];
    for _ in 0..runs {
        for (way, parts) in times.iter_mut().enumerate() {
            for (least, time) in parts.iter_mut().zip(time(way)) {
                *least = least.min(time);
            }
        }
    }
    times
}

/// Nanoseconds of `work`, once.
pub fn once(work: impl FnOnce()) -> f64 {
    let start = Instant::now();
    work();
    start.elapsed().as_nanos() as f64
}

/// Nanoseconds that the clock itself takes in `once`.
pub fn clock() -> f64 {
    median((0..1001).map(|_| once(|| {}) as u128).collect()) as f64
}
