//! `compare`: the proved library beside the Rust modules, answer for answer, on generated cases.

use oracle::generate::bench::Due;
use oracle::generate::{self, Case};
use oracle::loader::{
    decode_into, figures_of, Answer, Grid, Held, Lengths, Loader, Reading, Rust, Tables,
};
use oracle::random::Random;
use oracle::source::has_newer_mark;
use oracle::walk::{self, Places};
use oracle::{samples, spoil};
use std::collections::BTreeMap;
use std::process::exit;

const USAGE: &str = "usage: compare SEED COUNT [BUILD-EVERY] [FIRST]
Every BUILD-EVERY-th accepted grid is built (default 16; 0: none).
FIRST is the number of the first case (default 0).";

/// How many differences are written out.
const SHOWN: usize = 20;

#[cfg(linked)]
const OURS: &dyn Loader = &oracle::linked::Linked;
#[cfg(not(linked))]
const OURS: &dyn Loader = &Rust;

#[derive(Default)]
struct Kind {
    compared: u64,
    differ: u64,
    /// By the number that the Rust gives.
    numbers: BTreeMap<u32, u64>,
}

#[derive(Default)]
struct Tally {
    kinds: BTreeMap<&'static str, Kind>,
    shown: usize,
    case: String,
}

impl Tally {
    /// One answer, with what differs in it.
    fn count(&mut self, kind: &'static str, number: u32, difference: Option<String>) {
        let tally = self.kinds.entry(kind).or_default();
        tally.compared += 1;
        *tally.numbers.entry(number).or_default() += 1;
        let Some(difference) = difference else { return };
        tally.differ += 1;
        self.shown += 1;
        if self.shown <= SHOWN {
            println!("differs: {}: {kind}: {difference}", self.case);
        }
    }

    fn print(&self) -> bool {
        println!("{:32} {:>9} {:>8}  numbers", "answers", "compared", "differ");
        for (name, kind) in &self.kinds {
            let numbers: Vec<String> =
                kind.numbers.iter().map(|(number, count)| format!("{number}:{count}")).collect();
            println!("{name:32} {:9} {:8}  {}", kind.compared, kind.differ, numbers.join(" "));
        }
        let compared: u64 = self.kinds.values().map(|kind| kind.compared).sum();
        let differ: u64 = self.kinds.values().map(|kind| kind.differ).sum();
        println!("{compared} answers, {differ} differ");
        differ == 0
    }
}

fn main() {
    let arguments: Vec<u64> =
        std::env::args().skip(1).map(|word| word.parse().unwrap_or_else(|_| usage())).collect();
    let (seed, count, every, first) = match arguments[..] {
        [seed, count] => (seed, count, 16, 0),
        [seed, count, every] => (seed, count, every, 0),
        [seed, count, every, first] => (seed, count, every, first),
        _ => usage(),
    };
    if cfg!(not(linked)) {
        println!("no library was linked: the Rust beside itself");
    }
    let mut tally = Tally::default();
    let mut accepted = 0;
    for number in first..first + count {
        let case = generate::case(seed, number);
        tally.case = format!("case {seed} {number} ({})", case.name);
        run(&mut tally, &case, &mut Random::new(!seed, number), &mut accepted, every);
    }
    for due in generate::bench::bench() {
        tally.case = due.case.name.clone();
        compare_due(&mut tally, &due);
        run(&mut tally, &due.case, &mut Random::new(seed, 0), &mut accepted, 1);
    }
    tally.case = "grid of zeros".to_string();
    long_grids(&mut tally);
    println!("{count} cases, seed {seed}, {accepted} accepted");
    exit(if tally.print() { 0 } else { 1 });
}

fn usage() -> ! {
    eprintln!("{USAGE}");
    exit(2)
}

fn run(tally: &mut Tally, case: &Case, random: &mut Random, accepted: &mut u64, every: u64) {
    let (stop, places) = walk::reach(&case.bytes, walk::ROOMY);
    let exact = Lengths::of(places);
    let kind =
        if has_newer_mark(&case.bytes) { "decode, newer mark" } else { "decode, exact tables" };
    let (number, held) = compare_decode(tally, kind, &case.bytes, exact);
    let odd = !walk::agrees(number, stop);
    tally.count("walk of the bytes", number, odd.then(|| format!("Rust {number}, walk {stop}")));
    compare_decode(tally, "decode, one short", &case.bytes, one_short(random, places));
    compare_decode(tally, "decode, roomy tables", &case.bytes, roomy(random, exact));
    if random.percent(10) {
        compare_decode(tally, "decode, unpaired tables", &case.bytes, unpaired(random, exact));
    }
    if number != 0 {
        return;
    }
    *accepted += 1;
    let grid = held.grid();
    let build = every != 0 && *accepted % every == 0 && case.builds;
    compare_grid(tally, &grid, case, random, build);
    if random.percent(40) {
        compare_spoiled(tally, &grid, case, random);
    }
    if build {
        compare_spoiled_record(tally, &grid, random);
    }
}

/// The Rust gives the numbers that are due.
fn compare_due(tally: &mut Tally, due: &Due) {
    let (_, places) = walk::reach(&due.case.bytes, walk::ROOMY);
    let (decode, held) = decode_into(&Rust, &due.case.bytes, Lengths::of(places));
    let mut numbers = (decode, 0);
    if decode == 0 {
        let grid = held.grid();
        numbers.1 = grid.build(&Rust, &mut vec![0.0; figures_of(&grid.cells)]);
    }
    let differs = numbers != (due.decode, due.build);
    let difference =
        differs.then(|| format!("due {:?}, Rust {numbers:?}", (due.decode, due.build)));
    tally.count("bench list: numbers due", decode, difference);
}

/// Places for all but one thing: a root, a node or a span, by a whole place or by one word.
fn one_short(random: &mut Random, places: Places) -> Lengths {
    let mut lengths = Lengths::of(places);
    let whole = random.percent(50);
    let less = |length: usize, place: usize| length.saturating_sub(if whole { place } else { 1 });
    match random.below(5) {
        0 if places.roots > 0 => {
            lengths = Lengths::of(Places { roots: places.roots - 1, ..places })
        }
        1 | 0 if places.nodes[2] > 0 => {
            lengths.upper_links = less(lengths.upper_links, walk::entries(2));
            lengths.upper_values = lengths.upper_links;
        }
        2 if places.nodes[1] > 0 => {
            lengths.lower_links = less(lengths.lower_links, walk::entries(1));
            lengths.lower_values = lengths.lower_links;
        }
        3 if places.nodes[0] > 0 => {
            lengths.leaf_values = less(lengths.leaf_values, walk::entries(0))
        }
        _ => lengths.work = less(lengths.work, 4),
    }
    lengths
}

fn roomy(random: &mut Random, exact: Lengths) -> Lengths {
    let roots = exact.root_links + random.below(4);
    let upper = exact.upper_links + random.pick(&[0, 1, 7, 32768]);
    let lower = exact.lower_links + random.pick(&[0, 3, 4096, 5000]);
    Lengths {
        blocks: 3 * roots,
        root_links: roots,
        root_values: roots,
        upper_links: upper,
        upper_values: upper,
        lower_links: lower,
        lower_values: lower,
        leaf_values: exact.leaf_values + random.pick(&[0, 1, 511, 512, 2000]),
        work: exact.work + random.below(30),
        ..exact
    }
}

fn unpaired(random: &mut Random, exact: Lengths) -> Lengths {
    let mut lengths = exact;
    match random.below(10) {
        0 => lengths.blocks += 1,
        1 => lengths.blocks = lengths.blocks.checked_sub(1).unwrap_or(2),
        2 => lengths.root_links += 1,
        3 => lengths.root_values += 1,
        4 => lengths.upper_values += 1,
        5 => lengths.lower_links += 1,
        6 => lengths.counts = random.pick(&[0, 3, 5]),
        7 => lengths.medium = random.pick(&[0, 17, 19]),
        8 => lengths.cells = random.pick(&[0, 2, 4]),
        _ => lengths.corners = random.pick(&[0, 5, 7]),
    }
    lengths
}

fn compare_decode(
    tally: &mut Tally,
    kind: &'static str,
    bytes: &[u8],
    lengths: Lengths,
) -> (u32, Held) {
    let (number, held) = decode_into(&Rust, bytes, lengths);
    let given = bytes.to_vec();
    let (ours, our_held) = decode_into(OURS, &given, lengths);
    let difference = if number != ours {
        Some(format!("Rust {number}, ours {ours} ({lengths:?})"))
    } else if given != bytes {
        Some("the bytes were written".to_string())
    } else if !our_held.intact() {
        Some("written outside a table".to_string())
    } else {
        tables_differ(&held, &our_held)
    };
    tally.count(kind, number, difference);
    (number, held)
}

fn tables_differ(rust: &Held, ours: &Held) -> Option<String> {
    for ((name, rust), (_, ours)) in rust.words().into_iter().zip(ours.words()) {
        if let Some(i) = (0..rust.len()).find(|i| rust.at(*i) != ours.at(*i)) {
            return Some(format!("{name}[{i}]: Rust {:08x}, ours {:08x}", rust.at(i), ours.at(i)));
        }
    }
    None
}

fn compare_number(tally: &mut Tally, kind: &'static str, rust: u32, ours: u32) {
    tally.count(kind, rust, (rust != ours).then(|| format!("Rust {rust}, ours {ours}")));
}

fn compare_answers<T: std::fmt::Debug>(
    tally: &mut Tally,
    kind: &'static str,
    asked: &[T],
    rust: &[Answer],
    ours: &[Answer],
) {
    for ((asked, rust), ours) in asked.iter().zip(rust).zip(ours) {
        let difference = (rust != ours).then(|| {
            let [rust, ours] = [rust, ours].map(|(number, bits)| format!("{number} {bits:08x}"));
            format!("{asked:?}: Rust {rust}, ours {ours}")
        });
        tally.count(kind, rust.0, difference);
    }
}

/// Number, bits and level.
fn compare_readings(
    tally: &mut Tally,
    kind: &'static str,
    asked: &[[i32; 3]],
    theirs: &[Reading],
    ours: &[Reading],
) {
    for ((asked, theirs), ours) in asked.iter().zip(theirs).zip(ours) {
        let difference = (theirs != ours).then(|| {
            let [theirs, ours] = [theirs, ours]
                .map(|(number, bits, level)| format!("{number} {bits:08x} level {level}"));
            format!("{asked:?}: theirs {theirs}, ours {ours}")
        });
        tally.count(kind, theirs.0, difference);
    }
}

fn compare_grid(tally: &mut Tally, grid: &Grid, case: &Case, random: &mut Random, build: bool) {
    let tables = grid.tables();
    compare_number(tally, "validate", Rust.validate(tables), OURS.validate(tables));
    let (rust, ours) = (Rust.validate_density(tables), OURS.validate_density(tables));
    compare_number(tally, "validate_density", rust, ours);
    let at = samples::coordinates(random, &case.near, 24);
    let (rust, ours) = (Rust.get_values(tables, &at), OURS.get_values(tables, &at));
    compare_answers(tally, "get_value", &at, &rust, &ours);
    let walked: Vec<Answer> = at.iter().map(|at| (0, walk::voxel(&case.bytes, *at))).collect();
    compare_answers(tally, "get_value, walk of the bytes", &at, &walked, &ours);
    let (rust, ours) = (Rust.get_readings(tables, &at), OURS.get_readings(tables, &at));
    compare_readings(tally, "get_reading", &at, &rust, &ours);
    let walked = |at: &[i32; 3]| {
        let (bits, level) = walk::reading(&case.bytes, *at);
        (0, bits, level)
    };
    let walked: Vec<Reading> = at.iter().map(walked).collect();
    compare_readings(tally, "get_reading, walk of the bytes", &at, &walked, &ours);
    let mut boxes = samples::areas(random, &case.near, 6);
    boxes.push(std::array::from_fn(|i| grid.corners[i]));
    let (rust, ours) = (Rust.box_maxima(tables, &boxes), OURS.box_maxima(tables, &boxes));
    compare_answers(tally, "box_maximum", &boxes, &rust, &ours);
    compare_list(tally, "box_maxima", tables, &lists(random, &boxes));
    compare_union(tally, tables, case, random);
    for _ in 0..6 {
        compare_index(
            tally,
            "world_to_index_f",
            &grid.medium,
            samples::point(random, &grid.medium),
        );
    }
    if build {
        compare_build(tally, "build_majorant", grid, figures_of(&grid.cells));
        let mut other = grid.clone();
        other.cells = other_cells(random);
        compare_build(tally, "build_majorant, other cells", &other, figures_of(&other.cells));
    }
}

/// Other numbers of cells, each from the whole range: halves, primes and both ends. No more of them than 64 x 64 x 64 and as many again.
fn other_cells(random: &mut Random) -> Vec<u32> {
    loop {
        let cells: Vec<u32> =
            (0..3).map(|_| random.pick(&[1, 2, 3, 5, 7, 64, 100, 127, 128])).collect();
        if figures_of(&cells) <= 1 << 19 && cells != [64; 3] {
            return cells;
        }
    }
}

/// The boxes as a list, with its number of places: as they are, none, or a length that is not six to a place.
fn lists(random: &mut Random, boxes: &[[i32; 6]]) -> Vec<(Vec<i32>, usize)> {
    let (numbers, places) = (boxes.concat(), boxes.len());
    let odd = match random.below(5) {
        0 => (numbers[1..].to_vec(), places),
        1 => (numbers.clone(), places - 1),
        2 => (numbers.clone(), places + 1),
        3 => ([&numbers[..], &[7]].concat(), places),
        _ => (vec![0; 6], 0),
    };
    vec![(numbers, places), (Vec::new(), 0), odd]
}

fn compare_list(
    tally: &mut Tally,
    kind: &'static str,
    tables: Tables,
    lists: &[(Vec<i32>, usize)],
) {
    for (boxes, places) in lists {
        let fill = f32::from_bits(0x5a5a5a5a);
        let (mut maxima, mut ours) = (vec![fill; *places], vec![fill; *places]);
        let rust = Rust.list_maxima(tables, boxes, &mut maxima);
        let our = OURS.list_maxima(tables, boxes, &mut ours);
        let [maxima, ours] = [maxima, ours].map(|all| all.into_iter().map(f32::to_bits));
        let same = rust == our && maxima.eq(ours);
        tally.count(
            kind,
            rust.0,
            (!same).then(|| format!("{boxes:?}: Rust {rust:?}, ours {our:?}")),
        );
    }
}

/// The greatest of a list of small boxes beside the greatest of zero and every voxel in some box, by the walk of the bytes.
fn compare_union(tally: &mut Tally, tables: Tables, case: &Case, random: &mut Random) {
    let mut boxes = Vec::new();
    let mut greatest = 0.0f32;
    for low in samples::coordinates(random, &case.near, 3) {
        let high = low.map(|c| c.saturating_add(random.between(-1, 4) as i32));
        boxes.extend([low, high].concat());
        for (x, y, z) in (low[0]..=high[0])
            .flat_map(|x| (low[1]..=high[1]).map(move |y| (x, y)))
            .flat_map(|(x, y)| (low[2]..=high[2]).map(move |z| (x, y, z)))
        {
            greatest = greatest.max(f32::from_bits(walk::voxel(&case.bytes, [x, y, z])));
        }
    }
    let mut maxima = [0.0; 3];
    let due = (0, if greatest == 0.0 { 0 } else { greatest.to_bits() });
    let ours = OURS.list_maxima(tables, &boxes, &mut maxima);
    let difference = (due != ours).then(|| format!("{boxes:?}: walk {due:?}, ours {ours:?}"));
    tally.count("box_maxima, walk of the bytes", 0, difference);
}

fn compare_index(tally: &mut Tally, kind: &'static str, medium: &[f32], point: [f32; 3]) {
    let (mut index, mut ours) = ([0x5a5a5a5a; 3], [0x5a5a5a5a; 3]);
    let number = Rust.world_to_index_f(medium, point, &mut index);
    let our_number = OURS.world_to_index_f(medium, point, &mut ours);
    let same = (number, index) == (our_number, ours);
    tally.count(kind, number, (!same).then(|| {
        let point = point.map(f32::to_bits);
        format!("{point:08x?} {medium:?}: Rust {number} {index:08x?}, ours {our_number} {ours:08x?}")
    }));
}

fn compare_build(tally: &mut Tally, kind: &'static str, grid: &Grid, places: usize) {
    let fill = f32::from_bits(0x5a5a5a5a);
    let (mut figures, mut ours) = (vec![fill; places], vec![fill; places]);
    let (number, our_number) = (grid.build(&Rust, &mut figures), grid.build(OURS, &mut ours));
    let cell = (0..places).find(|i| figures[*i].to_bits() != ours[*i].to_bits());
    let difference = if number != our_number {
        Some(format!("Rust {number}, ours {our_number}"))
    } else {
        cell.map(|i| {
            format!("cell {i}: Rust {:08x}, ours {:08x}", figures[i].to_bits(), ours[i].to_bits())
        })
    };
    tally.count(kind, number, difference);
}

/// Tables that no decode gives: links past their tables, values beside children, NaN, lengths.
fn compare_spoiled(tally: &mut Tally, grid: &Grid, case: &Case, random: &mut Random) {
    let mut grid = grid.clone();
    let name = spoil::tables(&mut grid, random);
    tally.case = format!("{}, spoiled {name}", tally.case);
    let tables = grid.tables();
    compare_number(tally, "spoiled: validate", Rust.validate(tables), OURS.validate(tables));
    let (rust, ours) = (Rust.validate_density(tables), OURS.validate_density(tables));
    compare_number(tally, "spoiled: validate_density", rust, ours);
    let mut at = samples::coordinates(random, &case.near, 8);
    at.extend(grid.blocks.chunks_exact(3).take(4).map(|b| [b[0] << 12, b[1] << 12, b[2] << 12]));
    let (lookups, our_lookups) = (Rust.get_values(tables, &at), OURS.get_values(tables, &at));
    compare_answers(tally, "spoiled: get_value", &at, &lookups, &our_lookups);
    let (readings, our_readings) = (Rust.get_readings(tables, &at), OURS.get_readings(tables, &at));
    compare_readings(tally, "spoiled: get_reading", &at, &readings, &our_readings);
    let boxes = samples::areas(random, &case.near, 2);
    let (maxima, our_maxima) = (Rust.box_maxima(tables, &boxes), OURS.box_maxima(tables, &boxes));
    compare_answers(tally, "spoiled: box_maximum", &boxes, &maxima, &our_maxima);
    compare_list(tally, "spoiled: box_maxima", tables, &lists(random, &boxes));
    // A build of tables that still pass would cost as much as any other.
    if rust != 0 {
        compare_build(tally, "spoiled: build_majorant", &grid, figures_of(&grid.cells));
    }
}

fn compare_spoiled_record(tally: &mut Tally, grid: &Grid, random: &mut Random) {
    let mut spoiled = grid.clone();
    let name = spoil::record(&mut spoiled, random);
    tally.case = format!("{}, spoiled {name}", tally.case);
    compare_build(tally, "spoiled: build_majorant", &spoiled, figures_of(&grid.cells));
    for _ in 0..2 {
        let point = samples::point(random, &grid.medium);
        compare_index(tally, "spoiled: world_to_index_f", &spoiled.medium, point);
    }
    let places = figures_of(&grid.cells);
    let odd = random.pick(&[0, 1, places - 1, places + 1]);
    compare_build(tally, "spoiled: build_majorant", grid, odd);
}

/// 4,294,967,295 bytes of zeros have a wrong mark; one more is too long. The memory is never touched.
fn long_grids(tally: &mut Tally) {
    let length = 1usize << 32;
    let layout = std::alloc::Layout::array::<u8>(length).unwrap();
    // A null pointer is tested before use, and the slice is no longer than the memory.
    let start = unsafe { std::alloc::alloc_zeroed(layout) };
    if start.is_null() {
        println!("no memory for a grid of {length} bytes: number 1 is not compared");
        return;
    }
    for length in [length - 1, length] {
        let bytes = unsafe { std::slice::from_raw_parts(start, length) };
        let lengths = Lengths::of(Places { roots: 1, nodes: [1, 1, 1], spans: 3 });
        let (number, held) = decode_into(&Rust, bytes, lengths);
        let (ours, our_held) = decode_into(OURS, bytes, lengths);
        let difference = match number == ours {
            true => tables_differ(&held, &our_held),
            false => Some(format!("Rust {number}, ours {ours}")),
        };
        tally.count("decode, 2^32 bytes", number, difference);
    }
    unsafe { std::alloc::dealloc(start, layout) };
}
