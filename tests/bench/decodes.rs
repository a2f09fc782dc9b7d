//! `decodes`: the decode of the library beside another one's, in one process and by turns into the same tables, which have been used before,
//! with the machine's copy of the same bytes; as a table in Markdown.

mod asked;
mod grids;
#[path = "../../rust/smokegrid/src/tables.rs"]
#[allow(dead_code)] // of the crate's tables, what lends them
mod tables;
#[allow(dead_code)] // the best of several ways is bench.rs's
mod timing;

use asked::asked;
use std::hint::black_box;
use std::process::exit;
use tables::{Places, Tables};
use timing::{seconds, timed, ROUND};

fn main() {
    let (rounds, names) = asked("decodes");
    println!("| grid | | other | ours | other / ours | copy | ours / copy |\n|---|---|---|---|---|---|---|");
    for name in &names {
        measure(name, rounds);
    }
}

/// What a decode writes beside the tables of the grid.
struct Lent {
    tables: Tables,
    work: Vec<u64>,
    counts: [u64; 4],
    medium: [f32; 18],
    corners: [i32; 6],
    cells: [u32; 3],
}

/// A decode of the bytes by one library. One that is older than its argument `cells` does not look at it.
macro_rules! decode {
    ($lib:ident, $bytes:expr, $lent:expr) => {{
        let Lent { tables, work, counts, medium, corners, cells } = &mut *$lent;
        $lib::decode_density_grid(
            black_box($bytes),
            &mut tables.blocks,
            &mut tables.root_links,
            &mut tables.root_values,
            &mut tables.upper_links,
            &mut tables.upper_values,
            &mut tables.lower_links,
            &mut tables.lower_values,
            &mut tables.leaf_values,
            work,
            counts,
            &mut tables.background,
            medium,
            corners,
            cells,
        )
    }};
}

fn measure(name: &str, rounds: usize) {
    let Some(grid) = grids::grid(name) else {
        eprintln!("decodes: there is no grid {name}");
        exit(2)
    };
    let bytes: &[u8] = &grid.bytes;
    let places = Places::stated(bytes);
    let lent = &mut Lent {
        tables: Tables::new(places),
        work: vec![0; places.work_words(bytes)],
        counts: [0; 4],
        medium: [0.0; 18],
        corners: [0; 6],
        cells: [0; 3],
    };
    let mut copy = vec![0; bytes.len()];
    let mut run = |way: usize, repeats| {
        timed(repeats, &mut || match way {
            0 => assert_eq!(decode!(ours, bytes, lent), 0, "a grid that decodes"),
            1 => assert_eq!(decode!(other, bytes, lent), 0, "a grid that decodes"),
            _ => black_box(&mut copy[..]).copy_from_slice(black_box(bytes)),
        })
    };
    for way in 0..3 {
        run(way, 1);
    }
    let repeats = (ROUND / run(0, 1)).ceil().clamp(1.0, 1e5) as usize;
    let turns: Vec<[f64; 3]> = (0..rounds)
        .map(|round| {
            let mut times = [0.0; 3];
            for step in 0..3 {
                let way = (round + step) % 3;
                times[way] = run(way, repeats);
            }
            times
        })
        .collect();
    print_rows(&grid.name, &turns);
}

/// The medians of the times and of the turns' ratios, with a tenth and nine tenths of the turns; and the best of each.
fn print_rows(grid: &str, turns: &[[f64; 3]]) {
    let of = |figure: &dyn Fn(&[f64; 3]) -> f64| {
        let mut all: Vec<f64> = turns.iter().map(figure).collect();
        all.sort_by(f64::total_cmp);
        all
    };
    let at = |all: &[f64], tenths: usize| all[(all.len() - 1) * tenths / 10];
    let times = [0, 1, 2].map(|way| of(&|turn| turn[way]));
    let ratios = of(&|turn| turn[1] / turn[0]);
    let copies = of(&|turn| turn[0] / turn[2]);
    let row = |what: &str, [ours, other, copy]: [f64; 3], ratio: String, copies: f64| {
        let (ours, other, copy) = (seconds(ours), seconds(other), seconds(copy));
        println!("| {grid} | {what} | {other} | {ours} | {ratio} | {copy} | {copies:.2} |");
    };
    let spread = format!("{:.2} ({:.2} to {:.2})", at(&ratios, 5), at(&ratios, 1), at(&ratios, 9));
    row("median", [0, 1, 2].map(|way| at(&times[way], 5)), spread, at(&copies, 5));
    let best = [0, 1, 2].map(|way| times[way][0]);
    row("best", best, format!("{:.2}", best[1] / best[0]), best[0] / best[2]);
}
