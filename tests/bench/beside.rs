//! `beside`: the library beside another one with the same interface, in one process and by turns, as a table in Markdown.

mod asked;
mod grids;
#[allow(dead_code)] // the best of several ways is bench.rs's
mod timing;

use asked::asked;
use std::hint::black_box;
use std::process::exit;
use timing::{agree, seconds, timed, Way, ROUND};

/// How many voxels a side the boxes of a list have.
const SIDES: [i32; 7] = [1, 2, 3, 4, 8, 16, 64];

const CELLS: [[u32; 3]; 3] = [[64, 64, 64], [32, 32, 32], [128, 128, 64]];

fn main() {
    let (rounds, names) = asked("beside");
    println!("| grid | job | other | ours | other / ours, median of {rounds} turns (quarter, three quarters) |\n|---|---|---|---|---|");
    for name in &names {
        measure(name, rounds);
    }
}

/// The library's way to do a job, and the same of the other one.
macro_rules! both {
    (|$lib:ident, $grid:ident| $run:expr, $ours:expr, $other:expr) => {{
        let ours: Way = {
            #[allow(unused_imports)] // a job that names no type of the crate
            use smokegrid as $lib;
            let $grid = $ours;
            Box::new(move || $run)
        };
        let other: Way = {
            #[allow(unused_imports)]
            use ::other as $lib;
            let $grid = $other;
            Box::new(move || $run)
        };
        [ours, other]
    }};
}

fn measure(name: &str, rounds: usize) {
    let Some(grid) = grids::grid(name) else {
        eprintln!("beside: there is no grid {name}");
        exit(2)
    };
    let bytes: &[u8] = &grid.bytes;
    let ours = &smokegrid::Grid::decode(bytes).expect("a grid that decodes");
    let other = &other::Grid::decode(bytes).expect("a grid that decodes");
    let show = |job: &str, ways: [Way; 2]| print_row(&grid.name, job, turns(job, rounds, ways));
    show(
        "decode",
        both!(
            |lib, bytes| lib::Grid::decode(black_box(bytes)).map_or(0, |g| g.counts().leaf as u64),
            bytes,
            bytes
        ),
    );
    for side in SIDES.into_iter().filter(|side| *side <= grid.side) {
        let boxes = &boxes(grid.side, side);
        let job = format!("{} boxes of {side}³", boxes.len());
        show(
            &job,
            both!(
                |lib, g| {
                    let maxima: lib::Maxima =
                        black_box(g).box_maxima(boxes).expect("a grid that passes");
                    word_of(&maxima.each)
                },
                ours,
                other
            ),
        );
    }
    let (low, high) = ([0; 3], [grid.side - 1; 3]);
    show(
        "whole box",
        both!(
            |lib, g| black_box(g).box_maximum(low, high).map_or(0, |m| u64::from(m.to_bits())),
            ours,
            other
        ),
    );
    for cells in CELLS {
        let [x, y, z] = cells;
        show(
            &format!("build, {x} x {y} x {z}"),
            both!(
                |lib, g| {
                    let built: lib::Majorant =
                        black_box(g).build_majorant_with(cells).expect("a grid that builds");
                    word_of(built.figures())
                },
                ours,
                other
            ),
        );
    }
}

/// Boxes of so many voxels a side at places of the index box; so many that one `validate` is little beside them.
fn boxes(index: i32, side: i32) -> Vec<([i32; 3], [i32; 3])> {
    let mut word = 88172645463325252u64;
    let mut place = || {
        word ^= word << 13;
        word ^= word >> 7;
        word ^= word << 17;
        (word >> 33) as i32 % (index - side + 1)
    };
    let count = match side {
        0..=8 => 20_000,
        9..=16 => 2_000,
        _ => 50,
    };
    (0..count)
        .map(|_| [place(), place(), place()])
        .map(|low| (low, low.map(|c| c + side - 1)))
        .collect()
}

/// A number that stands for a list of values.
fn word_of(values: &[f32]) -> u64 {
    values
        .iter()
        .fold(0, |sum, value| sum.wrapping_mul(31).wrapping_add(u64::from(value.to_bits())))
}

/// The times of both ways for one call, in seconds, for each of so many rounds; each is the first of every other round.
fn turns(job: &str, rounds: usize, mut ways: [Way; 2]) -> Vec<[f64; 2]> {
    let mut answer = None;
    let mut run =
        |way: usize, repeats| timed(repeats, &mut || agree(job, &mut answer, ways[way]()));
    let repeats = (ROUND / run(0, 1).min(run(1, 1))).ceil().clamp(1.0, 1e5) as usize;
    let mut turn = |first: usize| {
        let mut times = [0.0; 2];
        for way in [first, 1 - first] {
            times[way] = run(way, repeats);
        }
        times
    };
    (0..rounds).map(|round| turn(round % 2)).collect()
}

/// The best time of each, and how the turns' ratios lie.
fn print_row(grid: &str, job: &str, turns: Vec<[f64; 2]>) {
    let best = |i: usize| turns.iter().map(|turn| turn[i]).fold(f64::INFINITY, f64::min);
    let mut ratios: Vec<f64> = turns.iter().map(|[ours, other]| other / ours).collect();
    ratios.sort_by(f64::total_cmp);
    let at = |part: usize| ratios[(ratios.len() - 1) * part / 4];
    println!(
        "| {grid} | {job} | {} | {} | {:.2} ({:.2}, {:.2}) |",
        seconds(best(1)),
        seconds(best(0)),
        at(2),
        at(1),
        at(3)
    );
}
