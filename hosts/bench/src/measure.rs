//! Times of two functions that do the same.

use std::hint::black_box;
use std::time::{Duration, Instant};

/// Nanoseconds per call, the medians of all rounds, and their time by ours.
/// The ratio is taken in each round, where both ran under the same load, so
/// its median need not be the quotient of the two.
#[derive(Clone, Copy, Debug)]
pub struct Times {
    pub ours: f64,
    pub theirs: f64,
    pub ratio: f64,
    /// Between which nine of ten rounds' ratios lie.
    pub spread: (f64, f64),
}

/// Odd, so that there is a middle one.
const ROUNDS: usize = 201;
/// Long against the clock's grain, short against a time slice: few rounds
/// are interrupted, and the median leaves those out.
const ROUND: Duration = Duration::from_micros(100);
/// Calls that take long, as those of thousands of pairs, get fewer rounds:
/// an odd number again, once this time is over. Of one call each, they still
/// take every request.
const ENOUGH: Duration = Duration::from_secs(2);
const FEWEST: usize = 11;

/// The functions are given the number of the call, to pick a request by; in
/// one round both get the same. Which of them goes first alternates, so that
/// whatever slows the machine, and whatever the other leaves in the caches,
/// slows both.
pub fn versus<A, B>(mut ours: impl FnMut(usize) -> A, mut theirs: impl FnMut(usize) -> B) -> Times {
    let calls = calls(&mut ours).max(calls(&mut theirs));
    let mut rounds = [(); 3].map(|_| Vec::with_capacity(ROUNDS));
    let begin = Instant::now();
    for round in 0..ROUNDS {
        let (our_time, their_time) = if round % 2 == 0 {
            let first = timed(round, calls, &mut ours);
            (first, timed(round, calls, &mut theirs))
        } else {
            let first = timed(round, calls, &mut theirs);
            (timed(round, calls, &mut ours), first)
        };
        rounds[0].push(our_time);
        rounds[1].push(their_time);
        rounds[2].push(their_time / our_time);
        let done = round + 1;
        if done >= FEWEST && done % 2 == 1 && begin.elapsed() > ENOUGH {
            break;
        }
    }
    for times in &mut rounds {
        times.sort_by(f64::total_cmp);
    }
    let at = |times: &[f64], hundredths: usize| times[(times.len() - 1) * hundredths / 100];
    let [ours, theirs, ratios] = rounds;
    Times {
        ours: at(&ours, 50),
        theirs: at(&theirs, 50),
        ratio: at(&ratios, 50),
        spread: (
            at(&ratios, 5),
            ratios[ratios.len() - 1 - (ratios.len() - 1) * 5 / 100],
        ),
    }
}

/// How many calls fill a round. Finding it also warms buffers, caches and
/// branch predictors.
fn calls<T>(function: &mut impl FnMut(usize) -> T) -> usize {
    let mut calls = 1;
    while nanoseconds(0, calls, function) * (calls as f64) < ROUND.as_nanos() as f64 {
        calls *= 2;
    }
    calls
}

/// Times in a frame that is elsewhere from round to round. Where a frame
/// and a buffer have the same place within a page, reads of the one wait
/// for writes to the other, and a call can take five times as long; the
/// system picks the places anew for each run.
fn timed<T>(round: usize, calls: usize, function: &mut impl FnMut(usize) -> T) -> f64 {
    let first = round * calls;
    match round / 2 % 5 {
        0 => deeper::<64, T>(first, calls, function),
        1 => deeper::<592, T>(first, calls, function),
        2 => deeper::<1_264, T>(first, calls, function),
        3 => deeper::<2_080, T>(first, calls, function),
        _ => deeper::<3_120, T>(first, calls, function),
    }
}

#[inline(never)]
fn deeper<const BYTES: usize, T>(
    first: usize,
    calls: usize,
    function: &mut impl FnMut(usize) -> T,
) -> f64 {
    let room = black_box([0u8; BYTES]);
    let time = nanoseconds(first, calls, function);
    black_box(&room);
    time
}

/// Never inlined, so that each pair of functions is timed by the same loop.
#[inline(never)]
fn nanoseconds<T>(first: usize, calls: usize, function: &mut impl FnMut(usize) -> T) -> f64 {
    let begin = Instant::now();
    for call in first..first + calls {
        black_box(function(call));
    }
    begin.elapsed().as_nanos() as f64 / calls as f64
}
