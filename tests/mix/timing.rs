//! Times of a density between voxels in samples/plume.grid, of random points of its world box. usage: timing ROUNDS POINTS

#[path = "../../rust/smokegrid/src/interface.rs"]
mod interface;
#[path = "../oracle/src/random.rs"]
mod random;

use interface::GridTables;
use random::Random;
use std::time::Instant;

#[allow(clippy::too_many_arguments)]
mod c {
    extern "C" {
        pub fn mix_points(
            background: f32,
            blocks: *const i32,
            blocks_len: usize,
            root_links: *const u32,
            root_links_len: usize,
            root_values: *const f32,
            root_values_len: usize,
            upper_links: *const u32,
            upper_links_len: usize,
            upper_values: *const f32,
            upper_values_len: usize,
            lower_links: *const u32,
            lower_links_len: usize,
            lower_values: *const f32,
            lower_values_len: usize,
            leaf_values: *const f32,
            leaf_values_len: usize,
            low: f32,
            high: f32,
            factor: f32,
            points: *const f32,
            points_len: usize,
            values: *mut f32,
            values_len: usize,
        ) -> u32;
    }
}

fn list(g: &GridTables, points: &[f32], values: &mut [f32]) -> u32 {
    // SAFETY: each pointer is valid for its length, and what is written is borrowed mutably, so it overlaps nothing.
    unsafe {
        c::mix_points(
            g.background,
            g.blocks.as_ptr(),
            g.blocks.len(),
            g.root_links.as_ptr(),
            g.root_links.len(),
            g.root_values.as_ptr(),
            g.root_values.len(),
            g.upper_links.as_ptr(),
            g.upper_links.len(),
            g.upper_values.as_ptr(),
            g.upper_values.len(),
            g.lower_links.as_ptr(),
            g.lower_links.len(),
            g.lower_values.as_ptr(),
            g.lower_values.len(),
            g.leaf_values.as_ptr(),
            g.leaf_values.len(),
            0.0,
            6.0,
            4.0,
            points.as_ptr(),
            points.len(),
            values.as_mut_ptr(),
            values.len(),
        )
    }
}

fn best(rounds: usize, mut work: impl FnMut()) -> f64 {
    (0..rounds).fold(f64::INFINITY, |least, _| {
        let start = Instant::now();
        work();
        least.min(start.elapsed().as_secs_f64())
    })
}

fn main() {
    let numbers: Vec<usize> =
        std::env::args().skip(1).map(|word| word.parse().expect("a number")).collect();
    let (rounds, count) = (numbers[0], numbers[1]);
    let bytes = std::fs::read("samples/plume.grid").expect("samples/plume.grid");
    let (mut blocks, mut root_links, mut root_values) = ([0; 3], [0; 1], [0.0; 1]);
    let (mut upper_links, mut upper_values) = (vec![0; 32768], vec![0.0; 32768]);
    let (mut lower_links, mut lower_values) = (vec![0; 4096], vec![0.0; 4096]);
    let (mut leaf_values, mut work) = (vec![0.0; 512 * 19], vec![0; 1000]);
    let (mut counts, mut background) = ([0; 4], 0.0);
    let (mut medium, mut corners, mut cells) = ([0.0; 18], [0; 6], [0; 3]);
    let number = interface::decode_density_grid(
        &bytes,
        &mut blocks,
        &mut root_links,
        &mut root_values,
        &mut upper_links,
        &mut upper_values,
        &mut lower_links,
        &mut lower_values,
        &mut leaf_values,
        &mut work,
        &mut counts,
        &mut background,
        &mut medium,
        &mut corners,
        &mut cells,
    );
    assert!(number == 0 && counts == [1, 1, 1, 19], "{number} {counts:?}");
    let tables = || GridTables {
        background,
        blocks: &blocks,
        root_links: &root_links,
        root_values: &root_values,
        upper_links: &upper_links,
        upper_values: &upper_values,
        lower_links: &lower_links,
        lower_values: &lower_values,
        leaf_values: &leaf_values,
    };
    let mut random = Random::new(1, 0);
    let points: Vec<f32> = (0..3 * count).map(|_| (6.0 * random.unit()) as f32).collect();
    let mut values = vec![0.0; count];
    assert!(list(&tables(), &points, &mut values) == 0);
    let single = 1000.min(count);
    for i in 0..single {
        let mut value = 7.5;
        let number = interface::mix(
            tables(),
            &medium,
            points[3 * i],
            points[3 * i + 1],
            points[3 * i + 2],
            &mut value,
        );
        assert!(number == 0 && value.to_bits() == values[i].to_bits());
    }
    let checks = best(rounds, || assert!(list(&tables(), &[], &mut []) == 0));
    let all = best(rounds, || assert!(list(&tables(), &points, &mut values) == 0));
    let each = (all - checks) / count as f64;
    println!(
        "the checks: {:.1} us; a point after them, of {count}: {:.1} ns, {:.2} million a second",
        1e6 * checks,
        1e9 * each,
        1e-6 / each
    );
    let one = best(rounds, || {
        for i in 0..single {
            let mut value = 0.0;
            interface::mix(
                tables(),
                &medium,
                points[3 * i],
                points[3 * i + 1],
                points[3 * i + 2],
                &mut value,
            );
        }
    });
    println!("smokegrid_mix, with the checks: {:.1} us a point", 1e6 * one / single as f64);
    let smoke = values.iter().filter(|v| **v > 0.0).count();
    println!("{smoke} of {count} points have smoke");
}
