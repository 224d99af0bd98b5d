//! Least times of repeated calls, the things compared taking turns.

use std::hint::black_box;
use std::time::Instant;

/// The least time of one call of each, in nanoseconds: what else runs on the machine
/// only adds to a time. A repetition makes so many calls of the first, then of the
/// second, and so on; one more repetition before the first is not counted.
pub fn least<const N: usize>(
    repetitions: usize,
    calls: usize,
    mut subjects: [&mut dyn FnMut() -> u64; N],
) -> [f64; N] {
    let mut least = [f64::INFINITY; N];
    for repetition in 0..=repetitions {
        for (subject, least) in subjects.iter_mut().zip(&mut least) {
            let began = Instant::now();
            for _ in 0..calls {
                black_box(subject());
            }
            if repetition > 0 {
                *least = least.min(began.elapsed().as_nanos() as f64 / calls as f64);
            }
        }
    }
    least
}
