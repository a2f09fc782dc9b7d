//! The list that the program replay_decode replays: crates/replay_decode/src/main.rt says what a case holds.

use oracle::cells::{cell, corners, enclosing, voxels_around};
use oracle::generate::{self, Case};
use oracle::loader::{decode_into, figures_of, Grid, Held, Lengths, Loader, Rust, CELLS};
use oracle::walk::{self, Places};
use std::io::Write;

/// What the program lends.
const LENT: Lengths = Lengths {
    blocks: 24,
    root_links: 8,
    root_values: 8,
    upper_links: 65536,
    upper_values: 65536,
    lower_links: 8192,
    lower_values: 8192,
    leaf_values: 4096,
    work: 64,
    counts: 4,
    medium: 18,
    corners: 6,
    cells: 3,
};
const BYTES: usize = 655360;
/// A case that has more bytes than these that are not 0 would make the list long.
const FULL: usize = 12000;
/// The cases to choose from.
const SEED: u64 = 1;
const CASES: u64 = 20000;
const SOUND: u64 = 1000000;

/// The sample; the first case for each refusal that comes up; of each shape the first two that are accepted; one that
/// builds, with smoke in leaves below blocks of both signs; and one each whose build is refused by 16 and by 17.
pub fn decode() {
    let mut cases = vec![generate::bench::sample()];
    let mut chosen: Vec<(String, u32)> = Vec::new();
    for number in 0..CASES {
        let case = generate::case(SEED, number);
        if !fits(&case) {
            continue;
        }
        let (refusal, _) = decode_into(&Rust, &case.bytes, LENT);
        let shape = case.name.split(',').next().unwrap_or_default();
        let kind = if refusal == 0 { shape.to_string() } else { String::new() };
        let wanted = if refusal == 0 { 2 } else { 1 };
        if chosen.iter().filter(|c| **c == (kind.clone(), refusal)).count() < wanted {
            chosen.push((kind, refusal));
            cases.push(case.bytes);
        }
    }
    let mut sound = (0..SOUND).map(|number| generate::sound(SEED, number));
    cases.push(sound.find(both_signs).expect("no case has blocks of both signs").bytes);
    for refusal in [16, 17] {
        let mut all = (0..SOUND).map(|number| generate::case(SEED, number));
        cases.push(all.find(|case| build_refused(case, refusal)).expect("no such build").bytes);
    }
    write(&cases);
}

/// Accepted, with smoke somewhere, and its build is refused by this number.
fn build_refused(case: &Case, refusal: u32) -> bool {
    if !fits(case) {
        return false;
    }
    let (number, held) = decode_into(&Rust, &case.bytes, LENT);
    if number != 0 {
        return false;
    }
    let grid = held.grid();
    let mut figures = vec![0.0; figures_of(&CELLS)];
    let built = grid.build(&Rust, &mut figures);
    built == refusal && within(&case.bytes, &grid).is_some()
}

/// Upper nodes below blocks that are negative on some axis and below blocks that are not, leaves, and figures of eight values.
fn both_signs(case: &Case) -> bool {
    if !case.builds || !fits(case) {
        return false;
    }
    let (number, held) = decode_into(&Rust, &case.bytes, LENT);
    let blocks = held.blocks.table().chunks(3).zip(held.root_links.table());
    let nodes: Vec<&[i32]> =
        blocks.filter(|(_, link)| **link != 0).map(|(block, _)| block).collect();
    let turns =
        |axis: usize| nodes.iter().any(|b| b[axis] < 0) && nodes.iter().any(|b| b[axis] >= 0);
    if number != 0 || held.counts.table()[3] == 0 || !(0..3).any(turns) {
        return false;
    }
    let grid = held.grid();
    let mut figures = vec![0.0; figures_of(&CELLS)];
    let built = grid.build(&Rust, &mut figures);
    let mut values: Vec<u32> =
        figures.iter().map(|f| f.to_bits()).filter(|bits| *bits != 0).collect();
    values.sort_unstable();
    values.dedup();
    built == 0 && values.len() >= 8
}

fn fits(case: &Case) -> bool {
    let (_, places) = walk::reach(&case.bytes, walk::ROOMY);
    let Places { roots, spans, nodes: [leaf, lower, upper] } = places;
    let few = roots <= 8 && spans <= 16 && leaf <= 8 && lower <= 2 && upper <= 2;
    few && case.bytes.len() <= BYTES && case.bytes.iter().filter(|b| **b != 0).count() <= FULL
}

fn write(cases: &[Vec<u8>]) {
    let mut words = vec![cases.len() as u32];
    let mut asked_above = false;
    for bytes in cases {
        push_case(&mut words, bytes, &mut asked_above);
    }
    let list: Vec<u8> = words.iter().flat_map(|word| word.to_le_bytes()).collect();
    std::io::stdout().write_all(&list).expect("the list cannot be written");
}

fn push_case(words: &mut Vec<u32>, bytes: &[u8], asked_above: &mut bool) {
    let full: Vec<usize> = (0..bytes.len()).filter(|i| bytes[*i] != 0).collect();
    words.extend([bytes.len() as u32, full.len() as u32]);
    words.extend(full.iter().flat_map(|i| [*i as u32, u32::from(bytes[*i])]));
    let (number, held) = decode_into(&Rust, bytes, LENT);
    words.push(number);
    words.extend(held.counts.table().iter().map(|count| *count as u32));
    words.push(held.background.to_bits());
    words.extend(held.medium.table().iter().map(|v| v.to_bits()));
    words.extend(held.corners.table().iter().map(|c| *c as u32));
    push_tables(words, &held);
    let grid = held.grid();
    let mut figures = vec![0.0; figures_of(&CELLS)];
    let build = grid.build(&Rust, &mut figures);
    push_build(words, build, &figures);
    let question = match (number, build) {
        (0, 0) => question(bytes, &grid, &figures, asked_above),
        (0, _) => within(bytes, &grid).unwrap_or(ANY),
        _ => ANY,
    };
    push_question(words, &question);
    let numbers = [number, if number != 0 { number } else { build }];
    push_answer(words, numbers, &grid, &figures, &question);
}

fn push_tables(list: &mut Vec<u32>, held: &Held) {
    for (name, words) in held.words() {
        if !["blocks", "links", "values"].iter().any(|end| name.ends_with(end)) {
            continue;
        }
        for i in (0..words.len()).filter(|i| words.at(*i) != 0) {
            list.extend([i as u32, words.at(i) as u32]);
        }
        list.extend([u32::MAX, 0]);
    }
}

/// The build of what was decoded: every 4,099th figure, and the first of each value, up to 64.
fn push_build(list: &mut Vec<u32>, number: u32, figures: &[f32]) {
    let mut seen = Vec::new();
    let mut cells: Vec<usize> = (0..figures.len()).step_by(4099).collect();
    for (cell, figure) in figures.iter().enumerate() {
        if seen.len() < 64 && !seen.contains(&figure.to_bits()) {
            seen.push(figure.to_bits());
            cells.push(cell);
        }
    }
    list.extend([number, cells.len() as u32]);
    list.extend(cells.iter().flat_map(|cell| [*cell as u32, figures[*cell].to_bits()]));
}

/// What is asked of a grid: a voxel, a box of voxels, and a point of the world.
struct Question {
    coordinate: [i32; 3],
    low: [i32; 3],
    high: [i32; 3],
    point: [f32; 3],
}

/// Asked of a grid that is refused.
const ANY: Question = Question { coordinate: [0; 3], low: [0; 3], high: [1; 3], point: [0.0; 3] };

/// About the first middle of a cell, from the greatest figure down, that has smoke around it. Where none has, about the
/// middle of the world box, a corner of eight cells; the first time about a point above the box.
fn question(bytes: &[u8], grid: &Grid, figures: &[f32], asked_above: &mut bool) -> Question {
    let mut cells: Vec<usize> = (0..figures.len()).filter(|cell| figures[*cell] > 0.0).collect();
    cells.sort_by(|a, b| figures[*b].total_cmp(&figures[*a]));
    let corners = corners(&grid.medium, &CELLS);
    let middles = cells.iter().map(|cell| middle(&corners, *cell));
    let mut questions = middles.filter_map(|point| around(bytes, grid, point));
    if let Some(question) = questions.find(|q| voxel(bytes, q.coordinate) > 0.0) {
        return question;
    }
    let mut point = corners.each_ref().map(|axis| axis[32]);
    if !*asked_above {
        point[2] = grid.medium[5].next_up();
        *asked_above = true;
    }
    around(bytes, grid, point).expect("a voxel outside i32")
}

fn voxel(bytes: &[u8], at: [i32; 3]) -> f32 {
    f32::from_bits(walk::voxel(bytes, at))
}

fn middle(corners: &[Vec<f32>; 3], cell: usize) -> [f32; 3] {
    let at = [cell % 64, cell / 64 % 64, cell / 4096];
    std::array::from_fn(|axis| (corners[axis][at[axis]] + corners[axis][at[axis] + 1]) / 2.0)
}

/// The box is the eight voxels around the point, the coordinate that of the fullest of them.
fn around(bytes: &[u8], grid: &Grid, point: [f32; 3]) -> Option<Question> {
    let voxels = voxels_around(&Rust, &grid.medium, point)?;
    let fullest = |a: &&[i32; 3], b: &&[i32; 3]| voxel(bytes, **a).total_cmp(&voxel(bytes, **b));
    let coordinate = *voxels.iter().max_by(fullest)?;
    Some(Question { coordinate, low: voxels[0], high: voxels[7], point })
}

/// About a voxel with smoke in the index box, and the box from it to the box's end; asked where the build is refused.
fn within(bytes: &[u8], grid: &Grid) -> Option<Question> {
    let [lx, ly, lz, hx, hy, hz] = <[i32; 6]>::try_from(&grid.corners[..]).ok()?;
    let end = |low: i32, high: i32| high.min(low.saturating_add(31));
    let (hx, hy, hz) = (end(lx, hx), end(ly, hy), end(lz, hz));
    let voxels =
        (lx..=hx).flat_map(|x| (ly..=hy).flat_map(move |y| (lz..=hz).map(move |z| [x, y, z])));
    let smoke = voxels.into_iter().find(|at| voxel(bytes, *at) > 0.0)?;
    Some(Question { coordinate: smoke, low: smoke, high: [hx, hy, hz], point: [0.0; 3] })
}

fn push_question(list: &mut Vec<u32>, question: &Question) {
    let Question { coordinate, low, high, point } = question;
    list.extend([coordinate, low, high].into_iter().flatten().map(|c| *c as u32));
    list.extend(point.map(f32::to_bits));
}

/// The numbers of the decode and of the build; the value and the maximum, zeros after a refused decode; and the first cell
/// that encloses the point (the number of cells where none does) with its figure, zeros after a refused build.
fn push_answer(
    list: &mut Vec<u32>,
    numbers: [u32; 2],
    grid: &Grid,
    figures: &[f32],
    question: &Question,
) {
    let Question { coordinate, low, high, point } = question;
    list.extend(numbers);
    if numbers[0] != 0 {
        return list.extend([0; 4]);
    }
    let area = [low[0], low[1], low[2], high[0], high[1], high[2]];
    let (_, value) = Rust.get_values(grid.tables(), &[*coordinate])[0];
    let (_, maximum) = Rust.box_maxima(grid.tables(), &[area])[0];
    list.extend([value, maximum]);
    if numbers[1] != 0 {
        return list.extend([0; 2]);
    }
    let [x, y, z] = enclosing(&corners(&grid.medium, &CELLS), *point);
    let found = match (x.first(), y.first(), z.first()) {
        (Some(x), Some(y), Some(z)) => cell(&CELLS, [*x, *y, *z]),
        _ => figures_of(&CELLS),
    };
    let figure = figures.get(found).copied().unwrap_or_default();
    list.extend([found as u32, figure.to_bits()]);
}
