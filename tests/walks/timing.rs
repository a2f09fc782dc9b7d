//! Times of counting coordinates by class: boxes of tiles, up to 2^60 coordinates, and a box of leaves. usage: timing

#[path = "../../rust/smokegrid/src/interface.rs"]
#[allow(dead_code)]
mod interface;

use interface::GridTables;
use std::time::Instant;

/// The best of some rounds, in nanoseconds for one call.
fn best(grid: GridTables, low: [i32; 3], high: [i32; 3], calls: u32) -> f64 {
    let limits = [0.25, 0.75];
    let mut counts = [0; 17];
    let mut least = f64::INFINITY;
    for _ in 0..7 {
        let begun = Instant::now();
        for _ in 0..calls {
            let ([lx, ly, lz], [hx, hy, hz]) = (low, high);
            let number =
                interface::count_classes(grid, &limits, lx, ly, lz, hx, hy, hz, &mut counts);
            assert_eq!(number, 0);
        }
        least = least.min(begun.elapsed().as_nanos() as f64 / f64::from(calls));
    }
    let sides = [0, 1, 2].map(|axis| (i64::from(high[axis]) - i64::from(low[axis]) + 1) as u64);
    assert_eq!(counts.iter().sum::<u64>(), sides.iter().product::<u64>());
    least
}

fn main() {
    let none: (&[u32], &[f32]) = (&[], &[]);
    let tile = GridTables {
        background: 0.0,
        blocks: &[-1, 0, 0],
        root_links: &[0],
        root_values: &[0.5],
        upper_links: none.0,
        upper_values: none.1,
        lower_links: none.0,
        lower_values: none.1,
        leaf_values: none.1,
    };
    let half = 1 << 19;
    println!(
        "2^60 coordinates, one tile and the background: {:.0} ns",
        best(tile, [-half; 3], [half - 1; 3], 100_000)
    );
    let (links, values) = (vec![1; 32_768], vec![0.0; 32_768]);
    let leaf: Vec<f32> = (0..512).map(|v| v as f32 / 512.0).collect();
    let leaves = GridTables {
        root_links: &[1],
        root_values: &[0.0],
        upper_links: &links,
        upper_values: &values,
        lower_links: &links[..4096],
        lower_values: &values[..4096],
        leaf_values: &leaf,
        ..tile
    };
    let low = [-4096, 0, 0];
    for side in [8, 64, 256] {
        let high = low.map(|v| v + side - 1);
        let time = best(leaves, low, high, if side > 64 { 3 } else { 200 });
        let each = time / f64::from(side).powi(3);
        println!("a box of {side} a side, all of it leaf values: {:.1} us, {each:.2} ns a value, validate included", time / 1000.0);
    }
}
