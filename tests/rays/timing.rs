//! How long a piece takes, by the library piece by piece, by `trace`, and by DDAMajorantIterator: the same rays across a box of 64 x 64 x 64
//! cells, opened and followed to their end, by turns.
//! usage: timing ROUNDS. Prints the median of the rounds; exit status 1 where they differ.

mod library;
#[path = "../oracle/src/random.rs"]
mod random;
mod source;
use source::{media, util};

use library::{next, open, Asked};
use media::{DDAMajorantIterator, MajorantGrid};
use random::Random;
use std::sync::Arc;
use std::time::Instant;
use util::base::Vector3f;
use util::geometry::{ray::Ray, Bounds3f};
use util::spectrum::SampledSpectrum;

const RAYS: u64 = 20_000;

/// The number of pieces, and the sum of what they say, so that nothing is left out.
type Sum = (u64, f64);

fn ours(rays: &[Asked], table: &[f32]) -> Sum {
    let mut sum = (0, 0.0);
    for a in rays {
        let (_, mut s) = open(a, table);
        loop {
            let (_, p) = next(&mut s, table);
            if p.more == 0 {
                break;
            }
            sum = (sum.0 + 1, sum.1 + f64::from((p.t1 - p.t0) * p.figure));
        }
    }
    sum
}

extern "C" {
    fn ray_trace(
        n: u32,
        ox: f32,
        oy: f32,
        oz: f32,
        dx: f32,
        dy: f32,
        dz: f32,
        t_min: f32,
        t_max: f32,
        majorants: *const f32,
        majorants_len: usize,
        ends: *mut f32,
        ends_len: usize,
        figures: *mut f32,
        figures_len: usize,
    ) -> usize;
}

fn traced(rays: &[Asked], table: &[f32]) -> Sum {
    let (mut ends, mut figures) = ([0.0f32; 190], [0.0f32; 190]);
    let mut sum = (0, 0.0);
    for a in rays {
        let (o, d) = (a.origin, a.direction);
        let count = unsafe {
            ray_trace(
                64,
                o[0],
                o[1],
                o[2],
                d[0],
                d[1],
                d[2],
                a.t_min,
                a.t_max,
                table.as_ptr(),
                table.len(),
                ends.as_mut_ptr(),
                ends.len(),
                figures.as_mut_ptr(),
                figures.len(),
            )
        };
        let mut t0 = a.t_min;
        for (t1, figure) in ends.iter().zip(&figures).take(count) {
            sum = (sum.0 + 1, sum.1 + f64::from((t1 - t0) * figure));
            t0 = *t1;
        }
    }
    sum
}

fn across(random: &mut Random) -> Asked {
    let end = |random: &mut Random| [0; 3].map(|_| random.unit() as f32);
    let (origin, target) = (end(random), end(random));
    let direction = [0, 1, 2].map(|i| target[i] - origin[i]);
    Asked {
        low: [0.0; 3],
        high: [1.0; 3],
        cells: [64; 3],
        origin,
        direction,
        t_min: 0.0,
        t_max: 1.0,
    }
}

fn theirs(rays: &[Asked], table: &Arc<[f32]>) -> Sum {
    let mut sum = (0, 0.0);
    for a in rays {
        let bounds = Bounds3f { min: Vector3f::of(a.low), max: Vector3f::of(a.high) };
        let ray = Ray::new(&Vector3f::of(a.origin), &Vector3f::of(a.direction), a.t_max, 0.0);
        let grid = MajorantGrid::new(bounds, [64; 3], table.clone());
        let mut i = DDAMajorantIterator::new(ray, a.t_min, a.t_max, SampledSpectrum(1.0), grid);
        while let Some(seg) = i.next() {
            sum = (sum.0 + 1, sum.1 + f64::from((seg.t_max - seg.t_min) * seg.sigma_maj.0));
        }
    }
    sum
}

fn main() {
    let rounds: usize =
        std::env::args().nth(1).map_or(15, |w| w.parse().expect("usage: timing ROUNDS"));
    let random = &mut Random::new(1, 1);
    let table: Arc<[f32]> = (0..64 * 64 * 64).map(|_| random.unit() as f32).collect();
    let rays: Vec<Asked> = (0..RAYS).map(|_| across(random)).collect();
    let ways: [(&str, &dyn Fn() -> Sum); 3] = [
        ("DDAMajorantIterator", &|| theirs(&rays, &table)),
        ("smokegrid_ray_next", &|| ours(&rays, &table)),
        ("rays::trace", &|| traced(&rays, &table)),
    ];
    let mut times = [const { Vec::new() }; 3];
    let mut sums = [(0, 0.0); 3];
    for _ in 0..rounds {
        for (i, (_, way)) in ways.iter().enumerate() {
            let start = Instant::now();
            sums[i] = way();
            times[i].push(start.elapsed().as_secs_f64());
        }
    }
    let medians = times.map(|mut t| {
        t.sort_by(f64::total_cmp);
        t[t.len() / 2]
    });
    let pieces = sums[0].0 as f64;
    println!("{} pieces of {RAYS} rays, median of {rounds} rounds", sums[0].0);
    for ((name, _), t) in ways.iter().zip(medians) {
        let (each, a_second) = (t / pieces * 1e9, pieces / t / 1e6);
        println!(
            "{name:20} {each:6.1} ns a piece, {a_second:6.1} million a second, {:5.2}",
            medians[0] / t
        );
    }
    std::process::exit(if sums.iter().all(|s| *s == sums[0]) { 0 } else { 1 });
}
