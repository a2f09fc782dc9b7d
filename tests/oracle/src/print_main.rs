//! `oracle`: prints what the Rust modules answer, for a grid in a file or for generated cases.

mod list;

use oracle::generate;
use oracle::loader::{
    decode_into, figures_of, record, Grid, Held, Lengths, Loader, Rust, Words, CELLS,
};
use oracle::random::Random;
use oracle::samples;
use oracle::source::{majorant_index, SparseScalarGrid};
use oracle::walk::{self, Places};
use std::collections::BTreeMap;
use std::process::exit;

const USAGE: &str = "usage:
  oracle file GRID [at X Y Z | box LX LY LZ HX HY HZ | point X Y Z | cell K | build | tables]...
  oracle case SEED NUMBER [the same]...
  oracle write SEED NUMBER FILE
  oracle sample FILE
  oracle numbers SEED COUNT [BUILD-EVERY]
  oracle list decode
Points are eight hexadecimal digits an axis, the bits of an f32.";

fn main() {
    let arguments: Vec<String> = std::env::args().skip(1).collect();
    let words: Vec<&str> = arguments.iter().map(String::as_str).collect();
    let done = match words.as_slice() {
        ["file", path, asked @ ..] => match std::fs::read(path) {
            Ok(bytes) => print_answers(&bytes, &[], &mut Random::new(0, 0), asked),
            Err(e) => {
                eprintln!("oracle: {path}: {e}");
                exit(1)
            }
        },
        ["case", seed, number, asked @ ..] => case(seed, number).and_then(|(case, mut random)| {
            println!("case {seed} {number} {}", case.name);
            print_answers(&case.bytes, &case.near, &mut random, asked)
        }),
        ["write", seed, number, path] => {
            case(seed, number).map(|(case, _)| write(path, &case.bytes))
        }
        ["sample", path] => Some(write(path, &generate::bench::sample())),
        ["list", "decode"] => Some(list::decode()),
        ["numbers", seed, count] => numbers(seed, count, "16"),
        ["numbers", seed, count, every] => numbers(seed, count, every),
        _ => None,
    };
    if done.is_none() {
        eprintln!("{USAGE}");
        exit(2);
    }
}

fn write(path: &str, bytes: &[u8]) {
    if let Err(e) = std::fs::write(path, bytes) {
        eprintln!("oracle: {path}: {e}");
        exit(1)
    }
}

fn case(seed: &str, number: &str) -> Option<(generate::Case, Random)> {
    let (seed, number) = (seed.parse().ok()?, number.parse().ok()?);
    Some((generate::case(seed, number), Random::new(!seed, number)))
}

/// The whole answer: without questions, at places chosen at random.
fn print_answers(
    bytes: &[u8],
    near: &[[i32; 3]],
    random: &mut Random,
    asked: &[&str],
) -> Option<()> {
    let (_, places) = walk::reach(bytes, walk::ROOMY);
    let (number, held) = decode_into(&Rust, bytes, Lengths::of(places));
    println!("length {}", bytes.len());
    println!("decode {number}");
    println!("reached {} {} spans {}", places.roots, nodes(places), places.spans);
    if number != 0 {
        return Some(());
    }
    let grid = held.grid();
    print_record(&held);
    if asked.is_empty() {
        print_tables(&held, false);
        print_samples(&grid, near, random);
        print_build(&grid, &[]);
        return Some(());
    }
    print_asked(&held, &grid, asked)
}

fn nodes(places: Places) -> String {
    let [leaf, lower, upper] = places.nodes;
    format!("{upper} {lower} {leaf}")
}

fn bits(values: &[f32]) -> String {
    let words: Vec<String> = values.iter().map(|v| format!("{:08x}", v.to_bits())).collect();
    words.join(" ")
}

fn joined(values: &[i32]) -> String {
    let words: Vec<String> = values.iter().map(i32::to_string).collect();
    words.join(" ")
}

fn print_record(held: &Held) {
    let counts: Vec<String> = held.counts.table().iter().map(u64::to_string).collect();
    let medium = held.medium.table();
    println!("nodes {}", counts.join(" "));
    println!("back {:08x}", held.background.to_bits());
    println!("world {}", bits(&medium[..6]));
    println!("map {}", bits(&medium[6..15]));
    println!("translation {}", bits(&medium[15..]));
    println!("box {}", joined(held.corners.table()));
}

/// 64 bits that differ for tables that differ (FNV-1a, a word at a time).
fn hash(words: &Words) -> u64 {
    let step = |hash: u64, i| (hash ^ words.at(i)).wrapping_mul(0x100000001b3);
    (0..words.len()).fold(0xcbf29ce484222325, step)
}

/// The roots; of the other tables a hash, or every word that is not zero.
fn print_tables(held: &Held, whole: bool) {
    for (i, block) in held.blocks.table().chunks(3).enumerate() {
        let (link, value) = (held.root_links.table()[i], held.root_values.table()[i]);
        println!("root {} {link} {:08x}", joined(block), value.to_bits());
    }
    for (name, words) in held.words() {
        if !name.ends_with("links") && !name.ends_with("values") {
            continue;
        }
        println!("table {name} {} {:016x}", words.len(), hash(&words));
        let full = if whole { words.len() } else { 0 };
        for i in (0..full).filter(|i| words.at(*i) != 0) {
            println!("word {name} {i} {:08x}", words.at(i));
        }
    }
}

fn print_samples(grid: &Grid, near: &[[i32; 3]], random: &mut Random) {
    let corners = &grid.corners;
    let mut near = near.to_vec();
    near.push([corners[0], corners[1], corners[2]]);
    for at in samples::coordinates(random, &near, 16) {
        print_value(grid, at);
    }
    for area in samples::areas(random, &near, 8) {
        print_maximum(grid, area);
    }
    for _ in 0..8 {
        print_index(grid, samples::point(random, &grid.medium));
    }
}

fn print_answer(name: &str, places: &[i32], (number, bits): (u32, u32)) {
    match number {
        0 => println!("{name} {} {bits:08x}", joined(places)),
        _ => println!("{name} {} refused {number}", joined(places)),
    }
}

fn print_value(grid: &Grid, at: [i32; 3]) {
    print_answer("at", &at, Rust.get_values(grid.tables(), &[at])[0]);
}

fn print_maximum(grid: &Grid, area: [i32; 6]) {
    print_answer("max", &area, Rust.box_maxima(grid.tables(), &[area])[0]);
}

fn print_index(grid: &Grid, point: [f32; 3]) {
    let mut index = [0; 3];
    let number = Rust.world_to_index_f(&grid.medium, point, &mut index);
    match number {
        0 => println!("index {} {}", bits(&point), bits(&index.map(f32::from_bits))),
        _ => return println!("index {} refused {number}", bits(&point)),
    }
    let medium = record(SparseScalarGrid::default(), &grid.medium, &grid.corners, CELLS);
    println!("majorant index {} {}", bits(&point), bits(&majorant_index(&medium, point)));
}

fn print_build(grid: &Grid, cells: &[usize]) {
    let mut figures = vec![0.0; figures_of(&CELLS)];
    let number = grid.build(&Rust, &mut figures);
    println!("build {number}");
    if number != 0 {
        return;
    }
    println!("figures {:016x}", hash(&Words::Float(&figures)));
    println!("clear {}", figures.iter().filter(|figure| **figure == 0.0).count());
    println!("greatest {:08x}", figures.iter().fold(0.0f32, |a, b| a.max(*b)).to_bits());
    for cell in cells {
        match figures.get(*cell) {
            Some(figure) => println!("cell {cell} {:08x}", figure.to_bits()),
            None => println!("cell {cell} none"),
        }
    }
}

fn print_asked(held: &Held, grid: &Grid, asked: &[&str]) -> Option<()> {
    let mut cells = Vec::new();
    let mut build = false;
    let mut rest = asked;
    while let [word, after @ ..] = rest {
        let used = match *word {
            "at" => {
                print_value(grid, parsed(after)?);
                3
            }
            "box" => {
                print_maximum(grid, parsed(after)?);
                6
            }
            "point" => {
                print_index(grid, hexadecimal(after)?);
                3
            }
            "cell" => {
                cells.push(after.first()?.parse().ok()?);
                build = true;
                1
            }
            "build" => {
                build = true;
                0
            }
            "tables" => {
                print_tables(held, true);
                0
            }
            _ => return None,
        };
        rest = &after[used..];
    }
    if build {
        print_build(grid, &cells);
    }
    Some(())
}

fn parsed<const N: usize>(words: &[&str]) -> Option<[i32; N]> {
    let numbers: Option<Vec<i32>> = words.get(..N)?.iter().map(|w| w.parse().ok()).collect();
    numbers?.try_into().ok()
}

fn hexadecimal(words: &[&str]) -> Option<[f32; 3]> {
    let bits = |w: &&str| u32::from_str_radix(w, 16).ok().map(f32::from_bits);
    let numbers: Option<Vec<f32>> = words.get(..3)?.iter().map(bits).collect();
    numbers?.try_into().ok()
}

/// How often each number is given by a decode, and by a build of every so many accepted grids.
fn numbers(seed: &str, count: &str, every: &str) -> Option<()> {
    let (seed, count): (u64, u64) = (seed.parse().ok()?, count.parse().ok()?);
    let every: u64 = every.parse().ok().filter(|n| *n > 0)?;
    let mut found = Found::default();
    for number in 0..count {
        found.look(&generate::case(seed, number), every);
    }
    println!("cases {count} seed {seed}, decode and walk disagree in {}", found.odd);
    println!("number decodes builds");
    for (number, [decodes, builds]) in found.numbers {
        println!("{number:6} {decodes:7} {builds:6}");
    }
    println!("accepted built shape");
    for (shape, [accepted, built]) in found.shapes {
        println!("{accepted:8} {built:5} {shape}");
    }
    Some(())
}

#[derive(Default)]
struct Found {
    odd: u64,
    /// Decodes and builds by number.
    numbers: BTreeMap<u32, [u64; 2]>,
    /// Accepted and built by shape.
    shapes: BTreeMap<String, [u64; 2]>,
}

impl Found {
    fn look(&mut self, case: &generate::Case, every: u64) {
        let (reach, places) = walk::reach(&case.bytes, walk::ROOMY);
        let (decode, held) = decode_into(&Rust, &case.bytes, Lengths::of(places));
        self.numbers.entry(decode).or_default()[0] += 1;
        self.odd += u64::from(!walk::agrees(decode, reach));
        if decode != 0 {
            return;
        }
        let shape = case.name.split(',').next().unwrap_or_default().to_string();
        let shape = self.shapes.entry(shape).or_default();
        shape[0] += 1;
        if case.builds && shape[0] % every == 0 {
            let grid = held.grid();
            let mut figures = vec![0.0; figures_of(&CELLS)];
            let build = grid.build(&Rust, &mut figures);
            self.numbers.entry(build).or_default()[1] += 1;
            shape[1] += u64::from(build == 0);
        }
    }
}
