//! The static library beside reference.rs: layers on paper, and windows over tables. usage: compare SEED LAYERS RUNS
//! Prints how often each kind came up; a kind that did not is a failure. The last line is 'N passed, M failed'.

#[path = "../../rust/smokegrid/src/interface.rs"]
#[allow(dead_code)]
mod interface;
#[path = "../oracle/src/random.rs"]
#[allow(dead_code)]
mod random;
mod reference;
#[path = "../tally.rs"]
mod tally;

use random::Random;
use tally::Tally;

fn bits(list: &[f32]) -> Vec<u32> {
    list.iter().map(|v| v.to_bits()).collect()
}

// ---- figures

const LEAST: f32 = f32::from_bits(1);

/// A finite figure that is not negative, of any size.
fn figure(random: &mut Random) -> f32 {
    match random.below(8) {
        0 => 0.0,
        1 => -0.0,
        2 => f32::from_bits(random.below(1 << 23) as u32),
        3 => f32::MAX,
        4 => LEAST,
        5 => f32::from_bits(0x7f00_0000 + random.below(1 << 23) as u32),
        _ => f32::from_bits(random.below(0x7f80_0000) as u32),
    }
}

/// A greatest figure with a ninth, and figures at k ninths of it exactly or the next above that.
fn edges(random: &mut Random, list: &mut [f32]) {
    let ninth = 1 + random.below((1 << 24) / 9 - 1) as u32;
    let shift = random.pick(&[0usize, 1, 20, 126, 149, 200, 230]);
    // ninth × 2^shift units, as a float: its digits fit, since 9 × ninth is below 2^24.
    let float = |k: u32| ((f64::from(k * ninth)) * 2f64.powi(shift as i32 - 149)) as f32;
    for v in list.iter_mut() {
        let k = 1 + random.below(9) as u32;
        let at = float(k);
        *v = if k < 9 && random.percent(50) { f32::from_bits(at.to_bits() + 1) } else { at };
    }
    let place = random.below(list.len());
    list[place] = float(9);
}

fn layer_of(random: &mut Random, list: &mut [f32]) -> &'static str {
    match random.below(6) {
        0 => {
            list.iter_mut().for_each(|v| *v = random.pick(&[0.0, -0.0]));
            "a layer of zeros"
        }
        1 | 2 => {
            edges(random, list);
            "figures at the edges"
        }
        3 => {
            list.iter_mut().for_each(|v| *v = f32::from_bits(random.below(1 << 23) as u32));
            let place = random.below(list.len());
            list[place] = 2f32.powi(127);
            "subnormals beside 2^127"
        }
        _ => {
            list.iter_mut().for_each(|v| *v = figure(random));
            "figures of any size"
        }
    }
}

const UNSOUND: [f32; 4] = [f32::NAN, f32::INFINITY, f32::NEG_INFINITY, f32::from_bits(0xffc1_2345)];

// ---- layers

fn layers(seed: u64, cases: u64, tally: &mut Tally) {
    tally.expect(&[
        "layer: a layer of zeros",
        "layer: figures at the edges",
        "layer: subnormals beside 2^127",
        "layer: figures of any size",
    ]);
    tally.expect(&[
        "layer: refused 9",
        "layer: refused 12",
        "layer: refused 15",
        "layer: refused 18",
        "layer: refused 23",
        "layer: refused 28",
    ]);
    tally.expect(&[
        "layer: accepted",
        "layer: several faults at once",
        "layer: a NaN in another layer passes",
        "layer: cells of another length",
    ]);
    tally.expect(&[
        "layer: 128 columns",
        "layer: z of three digits",
        "layer: room to the byte",
        "layer: zeros past the text",
    ]);
    for k in 1..=9 {
        tally.expect(&[&format!("layer: character {k}"), &format!("layer: exactly at {k}")]);
        if k < 9 {
            tally.expect(&[&format!("layer: next above {k}")]);
        }
    }
    tally.expect(&["layer: character ."]);
    for case in 0..cases {
        layer(&mut Random::new(seed, case), case, tally);
    }
}

fn layer(random: &mut Random, case: u64, tally: &mut Tally) {
    let side = |random: &mut Random| match random.below(10) {
        0 => 1,
        1 => 128,
        2 => random.pick(&[63, 64, 100]),
        _ => 1 + random.below(12) as u32,
    };
    let mut cells = vec![side(random), side(random), 1 + random.below(3) as u32];
    if random.percent(3) {
        cells = vec![1 + random.below(4) as u32, 1 + random.below(4) as u32, 128];
    }
    let [x, y, z] = [cells[0] as usize, cells[1] as usize, cells[2] as usize];
    let mut table = vec![0.0f32; x * y * z];
    let mut k = random.below(z);
    let mut kind = "";
    for (number, part) in table.chunks_mut(x * y).enumerate() {
        let made = layer_of(random, part);
        if number == k {
            kind = made;
        }
    }
    let mut unsound = false;
    if z > 1 && random.percent(30) {
        let other = (k + 1) % z;
        table[other * x * y] = random.pick(&UNSOUND);
        unsound = true;
    }
    // Faults, several at once now and then.
    let size = 19 + y * (x + 5);
    let mut room = if random.percent(50) { size } else { size + random.below(40) };
    let mut faults = 0;
    let mut fault = |random: &mut Random| {
        let there = random.percent(9);
        faults += usize::from(there);
        there
    };
    if fault(random) {
        let place = k * x * y + random.below(x * y);
        table[place] = random.pick(&UNSOUND);
    }
    if fault(random) {
        let place = k * x * y + random.below(x * y);
        table[place] = random.pick(&[-1.0, -LEAST, f32::MIN]);
    }
    if fault(random) {
        room = random.below(size);
    }
    if fault(random) {
        k = random.pick(&[z, z + 1, u32::MAX as usize]);
    }
    if fault(random) {
        if random.percent(50) && table.len() > 1 {
            table.pop();
        } else {
            table.push(0.0);
        }
    }
    if fault(random) {
        let axis = random.below(3);
        cells[axis] = random.pick(&[0, 129, u32::MAX]);
    }
    if fault(random) {
        if random.percent(50) {
            cells.pop();
        } else {
            cells.push(1);
        }
        tally.saw("layer: cells of another length");
    }
    if faults > 1 {
        tally.saw("layer: several faults at once");
    }
    let mut text = vec![0xa5u8; room];
    let mut wanted = vec![0x5au8; room];
    let (mut written, mut expected) = (0x5a5a, 0xa5a5);
    let answer = interface::print_layer(&table, &cells, k as u32, &mut text, &mut written);
    let number = reference::print_layer(&table, &cells, k as u32, &mut wanted, &mut expected);
    tally.check((answer, &text, written) == (number, &wanted, expected), || {
        format!("layer {case}: {answer} beside {number}, {written} beside {expected} bytes, {cells:?} layer {k}")
    });
    if number != 0 {
        tally.saw(&format!("layer: refused {number}"));
        return;
    }
    for kind in [kind, "accepted"] {
        tally.saw(&format!("layer: {kind}"));
    }
    for (told, there) in [
        ("128 columns", x == 128),
        ("z of three digits", k > 99),
        ("room to the byte", room == size),
        ("zeros past the text", room > size),
        ("a NaN in another layer passes", unsound),
    ] {
        if there {
            tally.saw(&format!("layer: {told}"));
        }
    }
    characters(&table[k * x * y..][..x * y], &text, x, tally);
}

/// Which characters came up, and at which edges.
fn characters(layer: &[f32], text: &[u8], x: usize, tally: &mut Tally) {
    let greatest = layer.iter().fold(0.0f32, |a, b| a.max(*b));
    for (i, v) in layer.iter().enumerate().take(40) {
        let (row, column) = (i / x, i % x);
        let rows = layer.len() / x;
        let c = text[19 + (rows - 1 - row) * (x + 5) + 4 + column];
        tally.saw(&format!("layer: character {}", char::from(c)));
        for k in 1..=9 {
            if *v != 0.0 && reference::edge(*v, greatest, k) {
                tally.saw(&format!("layer: exactly at {k}"));
            }
            let below = f32::from_bits(v.to_bits().wrapping_sub(1));
            if *v > 0.0 && below > 0.0 && k < 9 && reference::edge(below, greatest, k) {
                tally.saw(&format!("layer: next above {k}"));
            }
        }
    }
}

// ---- windows

/// The three arrays of a window.
#[derive(Clone)]
struct Arrays {
    window: Vec<u32>,
    memory: Vec<f32>,
    answer: Vec<f32>,
}

impl Arrays {
    fn same(&self, other: &Arrays) -> bool {
        self.window == other.window
            && bits(&self.memory) == bits(&other.memory)
            && bits(&self.answer) == bits(&other.answer)
    }

    fn push(&mut self, table: &[f32], cells: &[u32]) -> u32 {
        interface::window_push(table, cells, &mut self.window, &mut self.memory, &mut self.answer)
    }
}

fn windows(seed: u64, runs: u64, tally: &mut Tally) {
    for number in [12, 15, 18, 23, 26] {
        tally.expect(&[&format!("push: refused {number}")]);
    }
    for number in [18, 23, 26] {
        tally.expect(&[
            &format!("opening: refused {number}"),
            &format!("made up: refused {number}"),
        ]);
    }
    tally.expect(&[
        "push: accepted",
        "push: -0.0 in a table",
        "push: a negative before a NaN",
        "run: w = 1",
        "run: w = 16",
        "run: more than 3 w accepted",
    ]);
    tally.expect(&[
        "opening: accepted",
        "made up: accepted",
        "made up: a NaN in memory",
        "made up: held and next apart",
        "push: cells of another length",
    ]);
    tally.expect(&[
        "push: memory of another length",
        "push: answer of another length",
        "push: window of another length",
        "push: several faults at once",
    ]);
    for case in 0..runs {
        run(&mut Random::new(seed, case), case, tally);
        opening(&mut Random::new(seed + 1, case), case, tally);
        made_up(&mut Random::new(seed + 2, case), case, tally);
    }
}

fn width(random: &mut Random) -> u32 {
    match random.below(4) {
        0 => 1,
        1 => 16,
        _ => 1 + random.below(16) as u32,
    }
}

/// A table of a run, perhaps with faults, and its numbers.
fn pushed(random: &mut Random, cells: [u32; 3], tally: &mut Tally) -> (Vec<f32>, Vec<u32>) {
    let n: u32 = cells.iter().product();
    let mut numbers = cells.to_vec();
    let mut table: Vec<f32> = (0..n).map(|_| figure(random)).collect();
    let mut faults = 0;
    if table.iter().any(|v| v.to_bits() == 1 << 31) {
        tally.saw("push: -0.0 in a table");
    }
    let percent = random.pick(&[0, 0, 12]);
    let mut fault = |random: &mut Random| {
        let there = random.percent(percent);
        faults += usize::from(there);
        there
    };
    if fault(random) {
        let place = random.below(table.len());
        table[place] = random.pick(&UNSOUND);
    }
    if fault(random) {
        let place = random.below(table.len());
        table[place] = random.pick(&[-1.0, -LEAST, f32::MIN]);
        if table[place..].iter().any(|v| v.is_nan()) {
            tally.saw("push: a negative before a NaN");
        }
    }
    if fault(random) {
        if random.percent(50) {
            table.pop();
        } else {
            table.push(1.0);
        }
    }
    if fault(random) {
        let axis = random.below(3);
        numbers[axis] = random.pick(&[0, 129, u32::MAX, cells[axis] + 1]);
    }
    if fault(random) {
        if random.percent(50) {
            numbers.pop();
        } else {
            numbers.push(1);
        }
        tally.saw("push: cells of another length");
    }
    if faults > 1 {
        tally.saw("push: several faults at once");
    }
    (table, numbers)
}

/// Pushes from an opening, beside a list in which every accepted table is kept.
fn run(random: &mut Random, case: u64, tally: &mut Tally) {
    let w = width(random);
    let cells = [0; 3].map(|_| 1 + random.below(3) as u32);
    let n = cells.iter().product::<u32>() as usize;
    let mut arrays =
        Arrays { window: vec![9; 6], memory: vec![9.0; n * w as usize], answer: vec![9.0; n] };
    let Arrays { window, memory, answer } = &mut arrays;
    let number = interface::window_open(w, &cells, window, memory, answer);
    tally.check(number == 0, || format!("run {case}: the opening is refused by {number}"));
    let mut kept: Vec<Vec<f32>> = Vec::new();
    for push in 0..4 * w as usize + 3 {
        let (table, numbers) = pushed(random, cells, tally);
        let before = arrays.clone();
        tally.check(before.same(&reference_arrays(w, cells, &kept)), || {
            format!("run {case}, push {push}: the state before it")
        });
        let (number, own) = if random.percent(3) {
            other_length(random, &mut arrays, &table, &numbers, tally)
        } else {
            (arrays.push(&table, &numbers), reference_number(&table, &numbers, w, cells))
        };
        let wanted = if number == 0 {
            kept.push(table);
            tally.saw("push: accepted");
            reference_arrays(w, cells, &kept)
        } else {
            tally.saw(&format!("push: refused {number}"));
            before
        };
        tally.check(number == own && arrays.same(&wanted), || {
            format!("run {case}, push {push}: {number} beside {own}, w = {w}, {cells:?}")
        });
    }
    for (kind, there) in [
        ("w = 1", w == 1),
        ("w = 16", w == 16),
        ("more than 3 w accepted", kept.len() > 3 * w as usize),
    ] {
        if there {
            tally.saw(&format!("run: {kind}"));
        }
    }
}

/// The number of a table of a run: what document 02 says of the table alone.
fn reference_number(table: &[f32], numbers: &[u32], w: u32, cells: [u32; 3]) -> u32 {
    let n = cells.iter().product::<u32>() as usize;
    let mut window = [w, cells[0], cells[1], cells[2], 0, 0];
    reference::window_push(
        table,
        numbers,
        &mut window,
        &mut vec![0.0; n * w as usize],
        &mut vec![0.0; n],
    )
}

/// What a window holds after these tables: all of them are kept, and the last w count.
fn reference_arrays(w: u32, cells: [u32; 3], kept: &[Vec<f32>]) -> Arrays {
    let n = cells.iter().product::<u32>() as usize;
    let held = kept.len().min(w as usize);
    let last = &kept[kept.len() - held..];
    let mut memory = vec![0.0; n * w as usize];
    for (i, table) in kept.iter().enumerate() {
        memory[i % w as usize * n..][..n].copy_from_slice(table);
    }
    let window =
        vec![w, cells[0], cells[1], cells[2], held as u32, (kept.len() % w as usize) as u32];
    Arrays { window, memory, answer: reference::greatest(n, last.iter().map(|t| t.as_slice())) }
}

/// A push with one of the arrays a place too short: its number, and the one that it must have.
fn other_length(
    random: &mut Random,
    arrays: &mut Arrays,
    table: &[f32],
    numbers: &[u32],
    tally: &mut Tally,
) -> (u32, u32) {
    let (kind, cut) =
        random.pick(&[("window", [1, 0, 0]), ("memory", [0, 1, 0]), ("answer", [0, 0, 1])]);
    tally.saw(&format!("push: {kind} of another length"));
    let Arrays { window, memory, answer } = arrays;
    let lengths = [window.len() - cut[0], memory.len() - cut[1], answer.len() - cut[2]];
    let (window, memory, answer) =
        (&mut window[..lengths[0]], &mut memory[..lengths[1]], &mut answer[..lengths[2]]);
    let (mut w, mut m, mut a) = (window.to_vec(), memory.to_vec(), answer.to_vec());
    let wanted = reference::window_push(table, numbers, &mut w, &mut m, &mut a);
    (interface::window_push(table, numbers, window, memory, answer), wanted)
}

/// Openings with and without faults, into arrays that hold something.
fn opening(random: &mut Random, case: u64, tally: &mut Tally) {
    let mut w = width(random);
    let mut cells =
        vec![1 + random.below(4) as u32, 1 + random.below(4) as u32, 1 + random.below(4) as u32];
    let n = cells.iter().product::<u32>() as usize;
    let mut lengths = [6, n * w as usize, n];
    if random.percent(20) {
        w = random.pick(&[0, 17, u32::MAX]);
    }
    if random.percent(20) {
        let axis = random.below(3);
        cells[axis] = random.pick(&[0, 129, u32::MAX]);
    }
    if random.percent(10) {
        cells.pop();
    }
    for length in &mut lengths {
        if random.percent(10) {
            *length = if random.percent(50) { *length + 1 } else { *length - 1 };
        }
    }
    let mut ours = Arrays {
        window: vec![7; lengths[0]],
        memory: vec![-1.0; lengths[1]],
        answer: vec![f32::NAN; lengths[2]],
    };
    let mut theirs = ours.clone();
    let answer =
        interface::window_open(w, &cells, &mut ours.window, &mut ours.memory, &mut ours.answer);
    let number = reference::window_open(
        w,
        &cells,
        &mut theirs.window,
        &mut theirs.memory,
        &mut theirs.answer,
    );
    tally.check(answer == number && ours.same(&theirs), || {
        format!("opening {case}: {answer} beside {number}, w = {w}, {cells:?}, {lengths:?}")
    });
    tally.saw(&if number == 0 {
        "opening: accepted".to_string()
    } else {
        format!("opening: refused {number}")
    });
}

/// A state that no opening and pushes left: any words, any figures.
fn made_up(random: &mut Random, case: u64, tally: &mut Tally) {
    let w = width(random);
    let cells = [0; 3].map(|_| 1 + random.below(3) as u32);
    let n = cells.iter().product::<u32>() as usize;
    let (held, next) = (random.below(w as usize + 1) as u32, random.below(w as usize) as u32);
    let mut window = vec![w, cells[0], cells[1], cells[2], held, next];
    for place in 0..6 {
        if random.percent(4) {
            window[place] = random.pick(&[0, w, 16, 17, 129, u32::MAX, 2]);
        }
    }
    let any = |random: &mut Random| {
        if random.percent(10) {
            random.pick(&UNSOUND)
        } else {
            f32::from_bits(random.next() as u32)
        }
    };
    let memory: Vec<f32> = (0..n * w as usize).map(|_| any(random)).collect();
    let answer: Vec<f32> = (0..n).map(|_| any(random)).collect();
    let nan = memory.iter().any(|v| v.is_nan());
    let mut ours = Arrays { window, memory, answer };
    let mut theirs = ours.clone();
    let (table, numbers) = pushed(random, cells, tally);
    let answer = ours.push(&table, &numbers);
    let number = reference::window_push(
        &table,
        &numbers,
        &mut theirs.window,
        &mut theirs.memory,
        &mut theirs.answer,
    );
    tally.check(answer == number && ours.same(&theirs), || {
        format!("made up {case}: {answer} beside {number}, {:?}", theirs.window)
    });
    tally.saw(&if number == 0 {
        "made up: accepted".to_string()
    } else {
        format!("made up: refused {number}")
    });
    for (kind, there) in [
        ("a NaN in memory", nan && number == 0),
        ("held and next apart", held % w != next && number == 0),
    ] {
        if there {
            tally.saw(&format!("made up: {kind}"));
        }
    }
}

fn main() {
    let words: Vec<u64> = std::env::args()
        .skip(1)
        .map(|word| word.parse().expect("usage: compare SEED LAYERS RUNS"))
        .collect();
    let [seed, cases, runs] = words[..] else { panic!("usage: compare SEED LAYERS RUNS") };
    let mut tally = Tally::default();
    layers(seed, cases, &mut tally);
    windows(seed, runs, &mut tally);
    tally.end();
}
