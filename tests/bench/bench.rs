//! `bench`: the library beside the Rust modules and NanoVDB.h's lookups, as tables in Markdown.

mod grids;
mod timing;

use grids::{grid, Grid, NAMES};
use smokegrid::{Grid as Ours, Majorant};
use std::hint::black_box;
use std::process::{exit, Command};
use timing::{best_times, seconds, Way};

const USAGE: &str = "usage: bench ROUNDS LOOKUPS [GRID...]
Grids: 1-tile 999-tiles 27 2000 20000 200000 (default: all).";

/// Whose times stand in the columns.
const WAYS: [&str; 4] = ["ours", "Rust", "Rust, 2 threads", "NanoVDB.h"];

/// Numbers of boxes' voxels a side; the last box is the whole index box.
const BOXES: [i32; 3] = [8, 64, 256];

/// The cells that are built: those of a decode, fewer, and more than a table of theirs holds.
const CELLS: [[u32; 3]; 3] = [[64, 64, 64], [32, 32, 32], [128, 128, 64]];

#[cfg(nanovdb)]
extern "C" {
    /// The sum of the bits that getValue reads at so many coordinates.
    fn nanovdb_lookups(bytes: *const u8, coordinates: *const [i32; 3], count: usize) -> u64;
}

/// One job's best times, with what the work is counted in.
struct Row {
    job: String,
    times: Vec<Option<f64>>,
    /// A part of the job: of a box maximum the Rust's range_max without the validate that the library runs first, of a list the
    /// library's validate, of a lookup the call through C.
    alone: Option<f64>,
    unit: &'static str,
    units: f64,
}

/// What was measured of one grid.
struct Table {
    grid: String,
    bytes: usize,
    rows: Vec<Row>,
    peaks: [Option<usize>; 2],
}

fn main() {
    let words: Vec<String> = std::env::args().skip(1).collect();
    let words: Vec<&str> = words.iter().map(String::as_str).collect();
    if let ["peak", whose, name] = words[..] {
        return print_peak(whose, name);
    }
    let [rounds, lookups, names @ ..] = &words[..] else { usage() };
    let (Ok(rounds), Ok(lookups)) = (rounds.parse(), lookups.parse()) else { usage() };
    let names = if names.is_empty() { &NAMES[..] } else { names };
    if names.iter().any(|name| !NAMES.contains(name)) {
        usage();
    }
    let tables: Vec<Table> = names.iter().map(|name| measure(name, rounds, lookups)).collect();
    for table in &tables {
        print_times(table);
    }
    println!("\nThe row of lookups is for {lookups} of them.");
    print_growth(&tables);
    print_peaks(&tables);
}

fn usage() -> ! {
    eprintln!("{USAGE}");
    exit(2)
}

fn named(name: &str) -> Grid {
    grid(name).unwrap_or_else(|| usage())
}

/// Every job on one grid.
fn measure(name: &str, rounds: usize, lookups: usize) -> Table {
    let grid = named(name);
    eprintln!("{}: {} bytes", grid.name, grid.bytes.len());
    let bytes: &[u8] = &grid.bytes;
    let ours = Ours::decode(bytes).expect("a grid that decodes");
    let rust = oracle::source::decode_density_grid(bytes).expect("a grid that decodes");
    let mut rows = vec![decode(bytes, rounds), validate_density(&ours, &rust, rounds)];
    rows.extend(lookup_rows(&grid, &ours, &rust, rounds, lookups));
    for side in BOXES {
        let low = (grid.side - side) / 2 + side / 8;
        rows.push(box_row(format!("box of {side}³"), &ours, &rust, low, low + side - 1, rounds));
    }
    rows.push(box_row("whole box".to_string(), &ours, &rust, 0, grid.side - 1, rounds));
    rows.push(list_row(grid.side, &ours, &rust, rounds));
    for cells in CELLS {
        rows.push(build(bytes, &ours, cells, rounds));
    }
    let peaks = ["ours", "rust"].map(|whose| peak_of(whose, name));
    Table { grid: grid.name.clone(), bytes: bytes.len(), rows, peaks }
}

fn row(job: &str, rounds: usize, unit: &'static str, units: f64, ways: &mut [Option<Way>]) -> Row {
    let times = best_times(job, rounds, ways);
    Row { job: job.to_string(), times, alone: None, unit, units }
}

fn way<'a>(run: impl FnMut() -> u64 + 'a) -> Option<Way<'a>> {
    Some(Box::new(run))
}

fn decode(bytes: &[u8], rounds: usize) -> Row {
    let ours = way(|| Ours::decode(black_box(bytes)).map_or(0, |grid| grid.counts().leaf as u64));
    let rust = way(|| {
        let medium = oracle::source::decode_density_grid(black_box(bytes));
        medium.map_or(0, |medium| (medium.density.leaf_values.len() / 512) as u64)
    });
    row("decode", rounds, "KB", bytes.len() as f64 / 1e3, &mut [ours, rust, None, None])
}

type Medium = oracle::source::NanoVDBMedium;

fn validate_density(ours: &Ours, rust: &Medium, rounds: usize) -> Row {
    let entries = ours.table_bytes() as f64 / 4.0;
    let ours = way(|| u64::from(black_box(ours).validate_density().is_ok()));
    let rust =
        way(|| u64::from(oracle::source::validate_density(black_box(&rust.density)).is_ok()));
    row("validate_density", rounds, "table word", entries, &mut [ours, rust, None, None])
}

/// Coordinates of the index box and a little around it.
fn coordinates(side: i32, count: usize) -> Vec<[i32; 3]> {
    let mut random = oracle::random::Random::new(1, 0);
    let margin = i64::from(side / 16);
    (0..count)
        .map(|_| [0; 3].map(|_| random.between(-margin, i64::from(side) + margin) as i32))
        .collect()
}

/// Lookups, and lookups with the same call through C before each of the Rust's: what it is slower by is what that call costs.
fn lookup_rows(grid: &Grid, ours: &Ours, rust: &Medium, rounds: usize, count: usize) -> [Row; 2] {
    let at = coordinates(grid.side, count);
    let sum = |value: &dyn Fn([i32; 3]) -> f32| -> u64 {
        at.iter().map(|at| u64::from(value(*at).to_bits())).sum()
    };
    let density = &rust.density;
    // The crate with its lookups sent to call.c, which looks nothing up.
    let calls = calls::Grid::decode(&grid.bytes).expect("a grid that decodes");
    let call = |at| calls.get_value(at).unwrap_or(-1.0);
    let ours = || way(|| sum(&|at| ours.get_value(at).unwrap_or(-1.0)));
    let rust = |at| oracle::source::get_value(density, at).unwrap_or(-1.0);
    let called = |at| {
        black_box(call(at));
        rust(at)
    };
    let ways = &mut [ours(), way(|| sum(&rust)), None, nanovdb(&grid.bytes, &at)];
    let mut lookups = row("lookups", rounds, "lookup", count as f64, ways);
    lookups.alone = best_times("calls", rounds, &mut [way(|| sum(&call))])[0];
    let ways = &mut [ours(), way(|| sum(&called)), None, None];
    [lookups, row("lookups, called", rounds, "lookup", count as f64, ways)]
}

#[cfg(nanovdb)]
fn nanovdb<'a>(bytes: &'a [u8], at: &'a [[i32; 3]]) -> Option<Way<'a>> {
    // SAFETY: the grid passed the decode, and stands at a multiple of 32.
    way(move || unsafe { nanovdb_lookups(bytes.as_ptr(), at.as_ptr(), at.len()) })
}

#[cfg(not(nanovdb))]
fn nanovdb<'a>(_bytes: &'a [u8], _at: &'a [[i32; 3]]) -> Option<Way<'a>> {
    None
}

/// The library validates first, so the Rust does here; beside it, range_max alone.
fn box_row(job: String, ours: &Ours, rust: &Medium, low: i32, high: i32, rounds: usize) -> Row {
    let (low, high) = ([low; 3], [high; 3]);
    let density = &rust.density;
    let bits = |maximum: Result<f32, u32>| u64::from(maximum.unwrap_or(-1.0).to_bits());
    let range_max = || bits(oracle::source::range_max(black_box(density), low, high));
    let ways = &mut [
        way(|| bits(black_box(ours).box_maximum(low, high).map_err(|refusal| refusal.number()))),
        way(|| match oracle::source::validate(black_box(density)) {
            Ok(()) => range_max(),
            Err(number) => u64::from(number),
        }),
        None,
        None,
    ];
    let mut row = row(&job, rounds, "box", 1.0, ways);
    row.alone = best_times(&job, rounds, &mut [way(range_max)])[0];
    row
}

/// 1,000 boxes of 8³ by the list: one validate and then the boxes, of both. Beside it: that validate alone.
fn list_row(side: i32, ours: &Ours, rust: &Medium, rounds: usize) -> Row {
    let boxes: Vec<([i32; 3], [i32; 3])> =
        coordinates(side, 1000).into_iter().map(|low| (low, low.map(|c| c + 7))).collect();
    let density = &rust.density;
    let sum = |maxima: &mut dyn Iterator<Item = f32>| maxima.map(|m| u64::from(m.to_bits())).sum();
    let ways = &mut [
        way(|| match black_box(ours).box_maxima(&boxes) {
            Ok(maxima) => sum(&mut maxima.each.into_iter()),
            Err(refusal) => u64::from(refusal.number()),
        }),
        way(|| match oracle::source::validate(black_box(density)) {
            Ok(()) => sum(&mut boxes.iter().map(|(low, high)| {
                oracle::source::range_max(density, *low, *high).unwrap_or(-1.0)
            })),
            Err(number) => u64::from(number),
        }),
        None,
        None,
    ];
    let mut row = row("1,000 boxes of 8³", rounds, "box", 1000.0, ways);
    let validate = way(|| u64::from(black_box(ours).validate().is_ok()));
    row.alone = best_times("validate", rounds, &mut [validate])[0];
    row
}

/// A sum that tells the order of the figures.
fn figures_sum(figures: &[f32]) -> u64 {
    figures
        .iter()
        .fold(1, |sum: u64, figure| sum.wrapping_mul(31).wrapping_add(u64::from(figure.to_bits())))
}

/// A build with so many cells; a build that is refused is the number of its refusal.
fn build(bytes: &[u8], ours: &Ours, cells: [u32; 3], rounds: usize) -> Row {
    let mut rust = oracle::source::decode_density_grid(bytes).expect("a grid that decodes");
    let mut two = oracle_two::source::decode_density_grid(bytes).expect("a grid that decodes");
    (rust.majorant_resolution, two.majorant_resolution) = (cells, cells);
    let figures = |built: Result<Majorant, smokegrid::Refusal>| {
        built.map_or_else(|refusal| refusal.number().into(), |cells| figures_sum(cells.figures()))
    };
    let sum = |built: Result<Vec<f32>, u32>| built.map_or_else(u64::from, |f| figures_sum(&f));
    let ways = &mut [
        way(|| figures(black_box(ours).build_majorant_with(cells))),
        way(|| sum(oracle::source::build_majorant(black_box(&rust)))),
        way(|| sum(oracle_two::source::build_majorant(black_box(&two)))),
        None,
    ];
    let [x, y, z] = cells;
    let all = cells.iter().map(|number| f64::from(*number)).product();
    row(&format!("build, {x} x {y} x {z}"), rounds, "cell", all, ways)
}

/// The most memory of a process that decodes and builds a grid, its bytes included.
fn peak_of(whose: &str, name: &str) -> Option<usize> {
    let program = std::env::current_exe().ok()?;
    let output = Command::new(program).args(["peak", whose, name]).output().ok()?;
    String::from_utf8(output.stdout).ok()?.trim().parse().ok()
}

fn print_peak(whose: &str, name: &str) {
    let grid = named(name);
    let smoke = match whose {
        "ours" => {
            let grid = Ours::decode(&grid.bytes).expect("a grid that decodes");
            grid.build_majorant().expect("a grid that builds").clear()
        }
        _ => {
            let medium = oracle::source::decode_density_grid(&grid.bytes).unwrap();
            oracle::source::build_majorant(&medium).unwrap().len()
        }
    };
    black_box((smoke, &grid.bytes[0]));
    let status = std::fs::read_to_string("/proc/self/status").unwrap_or_default();
    let peak = status.lines().find_map(|line| line.strip_prefix("VmHWM:"));
    println!("{}", peak.unwrap_or("").trim().trim_end_matches("kB").trim());
}

fn print_times(table: &Table) {
    println!("\n### {}, {}\n", table.grid, megabytes(table.bytes as f64));
    let others: Vec<String> = WAYS[1..].iter().map(|way| format!("{way} | ratio")).collect();
    println!("| job | {} | {} | alone |", WAYS[0], others.join(" | "));
    println!("|{}", "---|".repeat(2 * WAYS.len() + 1));
    for row in &table.rows {
        let mut cells = vec![row.times[0].map_or(String::new(), seconds)];
        for time in &row.times[1..] {
            cells.push(time.map_or(String::new(), seconds));
            cells.push(ratio(*time, row.times[0]));
        }
        cells.push(row.alone.map_or(String::new(), seconds));
        println!("| {} | {} |", row.job, cells.join(" | "));
    }
}

/// Theirs over ours: above 1 the library is faster.
fn ratio(theirs: Option<f64>, ours: Option<f64>) -> String {
    match (theirs, ours) {
        (Some(theirs), Some(ours)) => format!("{:.2}", theirs / ours),
        _ => String::new(),
    }
}

fn print_growth(tables: &[Table]) {
    println!("\n### How each job grows: ours, for each unit of its work\n");
    let names: Vec<&str> = tables.iter().map(|table| table.grid.as_str()).collect();
    println!("| job | unit | {} |", names.join(" | "));
    println!("|{}", "---|".repeat(tables.len() + 2));
    let Some(last) = tables.last() else { return };
    for row in &last.rows {
        let times = tables.iter().map(|table| {
            let found = table.rows.iter().find(|other| other.job == row.job);
            let time = found.and_then(|found| Some(found.times[0]? / found.units));
            time.map_or(String::new(), seconds)
        });
        println!("| {} | {} | {} |", row.job, row.unit, times.collect::<Vec<_>>().join(" | "));
    }
}

fn print_peaks(tables: &[Table]) {
    println!("\n### Peak memory of a process that decodes and builds, the grid's bytes included\n");
    println!("| grid | bytes | ours | Rust | ratio |\n|---|---|---|---|---|");
    for table in tables {
        let [ours, rust] = table.peaks.map(|peak| peak.map(|kilobytes| 1024.0 * kilobytes as f64));
        let text = [ours, rust].map(|peak| peak.map_or("not known".to_string(), megabytes));
        let bytes = megabytes(table.bytes as f64);
        println!("| {} | {bytes} | {} | {} |", table.grid, text.join(" | "), ratio(rust, ours));
    }
}

fn megabytes(bytes: f64) -> String {
    match bytes {
        b if b < 1e6 => format!("{:.1} KB", b / 1e3),
        b => format!("{:.1} MB", b / 1e6),
    }
}
