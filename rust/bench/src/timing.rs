//! Medians of batches, the sides by turns, so that what slows the machine slows all of them.

use std::time::{Duration, Instant};

const BATCHES: usize = 41;
const BATCH: Duration = Duration::from_millis(1);
const WARM_UP: Duration = Duration::from_millis(20);

/// Nanoseconds a call.
pub struct Timed {
    /// The proved call: words and bytes to words.
    pub proved: f64,
    /// The original's function alone, on its own types.
    pub original: f64,
    /// The original for the same job: words and bytes to words.
    pub from_words: f64,
}

/// Nanoseconds a call of each side.
pub fn by_turns<const SIDES: usize>(mut sides: [&mut dyn FnMut(); SIDES]) -> [f64; SIDES] {
    let calls = sides.each_mut().map(|side| calls(*side));
    let mut times = [const { Vec::new() }; SIDES];
    for _ in 0..BATCHES {
        for ((side, calls), times) in sides.iter_mut().zip(calls).zip(&mut times) {
            times.push(batch(*side, calls));
        }
    }
    times.map(median)
}

/// Times the proved call beside the original.
pub fn beside(
    mut proved: impl FnMut(),
    mut original: impl FnMut(),
    mut from_words: impl FnMut(),
) -> Timed {
    let [proved, original, from_words] = by_turns([&mut proved, &mut original, &mut from_words]);
    Timed {
        proved,
        original,
        from_words,
    }
}

/// Warms up, and says how many calls fill a batch.
fn calls(call: &mut dyn FnMut()) -> u32 {
    let start = Instant::now();
    let mut done: u32 = 0;
    while start.elapsed() < WARM_UP || done == 0 {
        call();
        done += 1;
    }
    let calls = u128::from(done) * BATCH.as_nanos() / start.elapsed().as_nanos();
    u32::try_from(calls).map_or(done, |calls| calls.max(1))
}

fn batch(call: &mut dyn FnMut(), calls: u32) -> f64 {
    let start = Instant::now();
    for _ in 0..calls {
        call();
    }
    start.elapsed().as_secs_f64() * 1e9 / f64::from(calls)
}

fn median(mut times: Vec<f64>) -> f64 {
    times.sort_by(f64::total_cmp);
    times[times.len() / 2]
}
