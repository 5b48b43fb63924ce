//! Timing two programs side by side.

use std::hint::black_box;
use std::time::{Duration, Instant};

/// Medians of the time of one call, in nanoseconds, and how many times as fast as the plain program the engine is: the median of the rounds' ratios, since a round of one and the
/// next of the other meet the same machine, and rounds far apart may not.
pub struct Timed {
    pub engine: f64,
    pub plain: f64,
    pub ratio: f64,
}

const ROUNDS: usize = 25;
const ROUND: Duration = Duration::from_millis(12);

fn per_call<T>(calls: u32, mut call: impl FnMut() -> T) -> f64 {
    let start = Instant::now();
    for _ in 0..calls {
        black_box(call());
    }
    start.elapsed().as_nanos() as f64 / f64::from(calls)
}

/// How many calls take a round.
fn calls_of_a_round<T>(mut call: impl FnMut() -> T) -> u32 {
    let mut calls = 1;
    loop {
        let time = per_call(calls, &mut call) * f64::from(calls);
        if time > ROUND.as_nanos() as f64 / 2.0 || calls >= 1 << 20 {
            return calls;
        }
        calls *= 2;
    }
}

fn median(mut times: Vec<f64>) -> f64 {
    times.sort_by(f64::total_cmp);
    times[times.len() / 2]
}

/// Rounds of the two in turn, so that whatever else the machine does meets both.
pub fn side_by_side<T, U>(mut engine: impl FnMut() -> T, mut plain: impl FnMut() -> U) -> Timed {
    let (engine_calls, plain_calls) = (calls_of_a_round(&mut engine), calls_of_a_round(&mut plain));
    let (mut engine_times, mut plain_times) = (Vec::new(), Vec::new());
    for _ in 0..ROUNDS {
        engine_times.push(per_call(engine_calls, &mut engine));
        plain_times.push(per_call(plain_calls, &mut plain));
    }
    let ratios = engine_times.iter().zip(&plain_times).map(|(engine, plain)| plain / engine).collect();
    Timed { engine: median(engine_times), plain: median(plain_times), ratio: median(ratios) }
}
