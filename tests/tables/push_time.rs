//! How long a push takes: w = 16 tables of 64³ cells, a full window. usage: push_time ROUNDS
//! Beside it: one read of the memory that the push goes through (16 tables), the same greatest by the Rust's own loops, and one printed layer.
//! Each of the first three twice: right after one another, when the caches have the tables, and out of memory, after 256 MiB of something else.

#[path = "../../rust/smokegrid/src/interface.rs"]
#[allow(dead_code)]
mod interface;

use std::hint::black_box;
use std::time::Instant;

const W: usize = 16;
const SIDE: usize = 64;
const N: usize = SIDE * SIDE * SIDE;

/// The best of the rounds, in milliseconds; before each, `others` are written.
fn best(rounds: usize, others: &mut [u64], mut run: impl FnMut()) -> f64 {
    let mut least = f64::INFINITY;
    for round in 0..rounds {
        others.iter_mut().for_each(|v| *v = round as u64);
        black_box(&others);
        let start = Instant::now();
        run();
        least = least.min(start.elapsed().as_secs_f64() * 1e3);
    }
    least
}

/// In the caches, and out of memory.
fn both(rounds: usize, others: &mut [u64], mut run: impl FnMut()) -> [f64; 2] {
    [best(rounds, &mut [], &mut run), best(rounds, others, &mut run)]
}

fn main() {
    let rounds = std::env::args().nth(1).and_then(|word| word.parse().ok()).unwrap_or(51);
    let cells = [SIDE as u32; 3];
    let mut window = [0u32; 6];
    let (mut memory, mut answer) = (vec![0.0f32; W * N], vec![0.0f32; N]);
    let open = interface::window_open(W as u32, &cells, &mut window, &mut memory, &mut answer);
    assert_eq!(open, 0);
    let table: Vec<f32> = (0..N as u32).map(|i| (i.wrapping_mul(2654435761) >> 8) as f32).collect();
    let mut pushed = || {
        let number = interface::window_push(&table, &cells, &mut window, &mut memory, &mut answer);
        assert_eq!(number, 0);
    };
    (0..W).for_each(|_| pushed());
    let others = &mut vec![0u64; 32 << 20];
    let push = both(rounds, others, pushed);
    assert_eq!((window[4], &answer), (W as u32, &table));
    let read = both(rounds, others, || {
        let sum = memory.iter().fold(0u32, |sum, v| sum.wrapping_add(v.to_bits()));
        black_box(sum);
    });
    let rust = both(rounds, others, || {
        answer.fill(0.0);
        for table in memory.chunks(N) {
            for (a, v) in answer.iter_mut().zip(table) {
                *a = if *a < *v { *v } else { *a };
            }
        }
        black_box(&answer);
    });
    let (mut text, mut written) = (vec![0u8; 19 + SIDE * (SIDE + 5)], 0);
    let print = best(rounds, &mut [], || {
        assert_eq!(interface::print_layer(&table, &cells, 7, &mut text, &mut written), 0);
    });
    println!("w = {W}, {SIDE}^3 cells, in the caches and out of memory, in ms:");
    for (name, [near, far]) in
        [("a push", push), ("a read of its memory", read), ("the same by the Rust's loops", rust)]
    {
        println!("{name}: {near:.3} {far:.3}");
    }
    println!("a layer of {SIDE} x {SIDE} cells: {print:.4} ms");
}
