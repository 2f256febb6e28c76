//! The clock: the middle one of several turns, the contestants taking turns.

use std::arch::x86_64::_mm256_zeroupper;
use std::time::Instant;

/// Turns of each contestant.
pub const TURNS: usize = 200;
/// A turn lasts about as long as this, in seconds, where its calls are not longer.
pub const TURN: f64 = 0.002;
/// The fewest calls of a turn.
pub const CALLS: usize = 3;
/// The calls before the first that is timed. After others have had the caches, a call on a stripe of 16 MB becomes steady with its
/// seventh: the first takes three times as long.
pub const WARM: usize = 8;

fn time(call: &dyn Fn(), count: usize) -> f64 {
    let start = Instant::now();
    for _ in 0..count {
        call();
    }
    start.elapsed().as_secs_f64()
}

/// Clears the upper halves of the vector registers. Some peers leave them in use, which can slow down SSE code that comes after.
fn clear_upper_halves() {
    #[target_feature(enable = "avx")]
    fn clear() {
        _mm256_zeroupper();
    }
    if is_x86_feature_detected!("avx") {
        unsafe { clear() }
    }
}

/// How many calls fill a turn.
fn calls(call: &dyn Fn()) -> usize {
    let mut count = 1;
    loop {
        let taken = time(call, count);
        if taken >= TURN / 4.0 {
            return ((count as f64 * TURN / taken) as usize).max(CALLS);
        }
        count *= 2;
    }
}

/// Seconds that each takes, in its middle turn: a processor that is faster for some turns would else favour the contestants that had
/// them. A turn begins with calls that are not timed, so that the caches and registers are as the contestant's own call leaves them
/// and not as the others did.
pub fn middle(turns: usize, contestants: &[&dyn Fn()]) -> Vec<f64> {
    let counts: Vec<usize> = contestants.iter().map(|call| calls(*call)).collect();
    let mut taken = vec![vec![]; contestants.len()];
    for _ in 0..turns {
        for (i, call) in contestants.iter().enumerate() {
            clear_upper_halves();
            time(call, WARM);
            taken[i].push(time(call, counts[i]) / counts[i] as f64);
        }
    }
    let middle = |mut times: Vec<f64>| {
        times.sort_by(f64::total_cmp);
        times[times.len() / 2]
    };
    taken.into_iter().map(middle).collect()
}
