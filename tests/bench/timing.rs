//! The best of several rounds.

use std::time::Instant;

/// A round repeats a job until it has taken so many seconds.
pub const ROUND: f64 = 0.005;

/// One way to do a job; it answers a number that every way must agree on.
pub type Way<'a> = Box<dyn FnMut() -> u64 + 'a>;

/// The best time of each way for one call, in seconds, over rounds in which the ways take turns.
pub fn best_times(job: &str, rounds: usize, ways: &mut [Option<Way>]) -> Vec<Option<f64>> {
    let mut answer = None;
    let mut repeats = Vec::new();
    let mut best: Vec<Option<f64>> = Vec::new();
    for way in ways.iter_mut() {
        let first = way.as_mut().map(|way| timed(1, &mut || agree(job, &mut answer, way())));
        repeats.push(first.map_or(0, |time| (ROUND / time).ceil().clamp(1.0, 1e5) as usize));
        best.push(first);
    }
    for _ in 0..rounds {
        for (i, way) in ways.iter_mut().enumerate() {
            if let (Some(way), Some(best)) = (way, &mut best[i]) {
                *best = best.min(timed(repeats[i], &mut || agree(job, &mut answer, way())));
            }
        }
    }
    best
}

/// The time of one call, in seconds, over so many.
pub fn timed(repeats: usize, run: &mut dyn FnMut()) -> f64 {
    let start = Instant::now();
    for _ in 0..repeats {
        run();
    }
    start.elapsed().as_secs_f64() / repeats as f64
}

/// A time says nothing where the answers differ.
pub fn agree(job: &str, answer: &mut Option<u64>, now: u64) {
    let first = *answer.get_or_insert(now);
    assert_eq!(first, now, "{job}: the answers differ");
}

/// Seconds in three digits.
pub fn seconds(time: f64) -> String {
    let (number, unit) = match time {
        t if t < 1e-6 => (t * 1e9, "ns"),
        t if t < 1e-3 => (t * 1e6, "µs"),
        t if t < 1.0 => (t * 1e3, "ms"),
        t => (t, "s"),
    };
    let places = if number < 10.0 { 2 } else { usize::from(number < 100.0) };
    format!("{number:.places$} {unit}")
}
