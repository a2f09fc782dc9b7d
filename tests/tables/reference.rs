//! Layers on paper and windows over tables, written from document 02 alone: A14 in whole numbers of 320 bits, A11 over the tables that a
//! window says it holds. The functions have the arguments of smokegrid.h over slices.

const TABLES: u32 = 18;

/// A whole number below 2^320, the lowest word first.
#[derive(Clone, Copy, PartialEq, Eq)]
struct Whole([u64; 5]);

impl Whole {
    /// A finite figure that is not negative, in units of 2^-149.
    fn of(figure: f32) -> Self {
        let bits = figure.to_bits() & 0x7fff_ffff;
        let (field, low) = (bits >> 23, u64::from(bits & 0x7f_ffff));
        let (digits, shift) = if field == 0 { (low, 0) } else { (low | 1 << 23, field - 1) };
        let mut words = [0; 5];
        let (word, bit) = ((shift / 64) as usize, shift % 64);
        words[word] = digits << bit;
        if bit > 0 {
            words[word + 1] = digits >> (64 - bit);
        }
        Whole(words)
    }

    fn times(self, k: u64) -> Self {
        let mut carry = 0u128;
        Whole(self.0.map(|word| {
            carry += u128::from(word) * u128::from(k);
            let low = carry as u64;
            carry >>= 64;
            low
        }))
    }

    fn at_most(self, other: Self) -> bool {
        self.0.iter().rev().le(other.0.iter().rev())
    }
}

/// Whether figure × 9 is k × greatest exactly, and whether it is just above it.
pub fn edge(figure: f32, greatest: f32, k: u64) -> bool {
    Whole::of(figure).times(9) == Whole::of(greatest).times(k)
}

fn character(figure: f32, greatest: f32) -> u8 {
    if figure == 0.0 {
        return b'.';
    }
    let nine = Whole::of(figure).times(9);
    let k = (1..=9).find(|k| nine.at_most(Whole::of(greatest).times(*k)));
    b'0' + k.expect("no figure is above the greatest") as u8
}

/// 23, and the product of three numbers that pass.
fn count(cells: [u32; 3]) -> Result<usize, u32> {
    if cells.iter().all(|n| (1..=128).contains(n)) {
        Ok(cells.iter().map(|n| *n as usize).product())
    } else {
        Err(23)
    }
}

/// 12 where any figure is not finite, and then 15 where any is negative.
fn figures(list: &[f32]) -> Result<(), u32> {
    if list.iter().any(|v| !v.is_finite()) {
        return Err(12);
    }
    if list.iter().any(|v| *v < 0.0) {
        return Err(15);
    }
    Ok(())
}

/// The lines of a layer, or the number.
pub fn sheet(table: &[f32], cells: &[u32], layer: u32, room: usize) -> Result<String, u32> {
    let cells: [u32; 3] = cells.try_into().map_err(|_| TABLES)?;
    if table.len() != count(cells)? {
        return Err(TABLES);
    }
    let [x, y, z] = cells.map(|n| n as usize);
    let layer = layer as usize;
    if layer >= z {
        return Err(28);
    }
    let cell = |i: usize, j: usize| table[i + x * (j + y * layer)];
    let all: Vec<f32> = (0..y).flat_map(|j| (0..x).map(move |i| cell(i, j))).collect();
    figures(&all)?;
    let greatest =
        all.iter().fold(0.0f32, |a, b| if Whole::of(*b).at_most(Whole::of(a)) { a } else { *b });
    let mut text = format!("layer {layer:>3} {:08x}\n", greatest.to_bits());
    for j in (0..y).rev() {
        text += &format!("{j:>3} ");
        text.extend((0..x).map(|i| char::from(character(cell(i, j), greatest))));
        text.push('\n');
    }
    if text.len() > room {
        return Err(9);
    }
    Ok(text)
}

pub fn print_layer(
    majorants: &[f32],
    cells: &[u32],
    layer: u32,
    text: &mut [u8],
    written: &mut u64,
) -> u32 {
    text.fill(0);
    *written = 0;
    match sheet(majorants, cells, layer, text.len()) {
        Ok(lines) => {
            text[..lines.len()].copy_from_slice(lines.as_bytes());
            *written = lines.len() as u64;
            0
        }
        Err(number) => number,
    }
}

/// For each cell the greatest of +0.0 and the tables' figures.
pub fn greatest<'a>(n: usize, tables: impl Iterator<Item = &'a [f32]>) -> Vec<f32> {
    let mut most = vec![0.0; n];
    for table in tables {
        for (a, v) in most.iter_mut().zip(table) {
            if *v > *a {
                *a = *v;
            }
        }
    }
    most
}

fn opening(w: u32, cells: &[u32], window: usize, memory: usize, answer: usize) -> Result<(), u32> {
    let cells: [u32; 3] = cells.try_into().map_err(|_| TABLES)?;
    if window != 6 {
        return Err(TABLES);
    }
    let n = count(cells)?;
    if !(1..=16).contains(&w) {
        return Err(26);
    }
    if memory != n * w as usize || answer != n {
        return Err(TABLES);
    }
    Ok(())
}

pub fn window_open(
    w: u32,
    cells: &[u32],
    window: &mut [u32],
    memory: &mut [f32],
    answer: &mut [f32],
) -> u32 {
    let opened = opening(w, cells, window.len(), memory.len(), answer.len());
    window.fill(0);
    memory.fill(0.0);
    answer.fill(0.0);
    match opened {
        Ok(()) => {
            window.copy_from_slice(&[w, cells[0], cells[1], cells[2], 0, 0]);
            0
        }
        Err(number) => number,
    }
}

fn pushing(
    table: &[f32],
    cells: &[u32],
    window: &[u32],
    memory: usize,
    answer: usize,
) -> Result<(), u32> {
    let cells: [u32; 3] = cells.try_into().map_err(|_| TABLES)?;
    let &[w, x, y, z, held, next] = window else { return Err(TABLES) };
    let n = count(cells)?;
    if !(1..=16).contains(&w) || cells != [x, y, z] {
        return Err(26);
    }
    if table.len() != n || memory != n * w as usize || answer != n || held > w || next >= w {
        return Err(TABLES);
    }
    figures(table)
}

pub fn window_push(
    majorants: &[f32],
    cells: &[u32],
    window: &mut [u32],
    memory: &mut [f32],
    answer: &mut [f32],
) -> u32 {
    if let Err(number) = pushing(majorants, cells, window, memory.len(), answer.len()) {
        return number;
    }
    let (w, n, place) = (window[0] as usize, majorants.len(), window[5] as usize);
    memory[place * n..][..n].copy_from_slice(majorants);
    window[4] = (window[4] + 1).min(window[0]);
    window[5] = ((place + 1) % w) as u32;
    // The places before the next one, going round.
    let places = (1..=window[4] as usize).map(|back| (window[5] as usize + w - back) % w);
    answer.copy_from_slice(&greatest(n, places.map(|p| &memory[p * n..][..n])));
    0
}
