//! The two functions of smokegrid.h for rays.

#[path = "../../rust/smokegrid/src/interface.rs"]
mod interface;

/// What is asked for.
#[derive(Clone, Debug)]
pub struct Asked {
    pub low: [f32; 3],
    pub high: [f32; 3],
    pub cells: [u32; 3],
    pub origin: [f32; 3],
    pub direction: [f32; 3],
    pub t_min: f32,
    pub t_max: f32,
}

#[derive(Clone, Copy, Debug)]
pub struct State {
    pub times: [f32; 8],
    pub cells: [i32; 9],
}

impl State {
    /// What every output holds before a call.
    pub const FILLED: State = State { times: [7.5; 8], cells: [-77; 9] };

    pub fn is_zero(&self) -> bool {
        self.times.iter().all(|t| t.to_bits() == 0) && self.cells.iter().all(|&c| c == 0)
    }
}

/// A NaN has no bits of its own here.
pub fn bits(v: f32) -> u32 {
    if v.is_nan() {
        0x7fc00000
    } else {
        v.to_bits()
    }
}

pub fn same(a: &State, b: &State) -> bool {
    a.cells == b.cells && a.times.iter().zip(&b.times).all(|(x, y)| bits(*x) == bits(*y))
}

#[derive(Clone, Copy, Debug)]
pub struct Piece {
    pub more: u32,
    pub t0: f32,
    pub t1: f32,
    pub figure: f32,
}

/// The medium of smokegrid.h: only its first six numbers play a part.
pub fn medium(a: &Asked) -> [f32; 18] {
    let mut m = [f32::NAN; 18];
    m[..3].copy_from_slice(&a.low);
    m[3..6].copy_from_slice(&a.high);
    m
}

pub fn open_with(
    m: &[f32],
    cells: &[u32],
    table: &[f32],
    a: &Asked,
    times: &mut [f32],
    numbers: &mut [i32],
) -> u32 {
    let ([ox, oy, oz], [dx, dy, dz]) = (a.origin, a.direction);
    let (from, to) = (a.t_min, a.t_max);
    interface::ray_open(m, cells, table, ox, oy, oz, dx, dy, dz, from, to, times, numbers)
}

pub fn open(a: &Asked, table: &[f32]) -> (u32, State) {
    let mut s = State::FILLED;
    let number = open_with(&medium(a), &a.cells, table, a, &mut s.times, &mut s.cells);
    (number, s)
}

pub fn next_with(table: &[f32], times: &mut [f32], numbers: &mut [i32]) -> (u32, Piece) {
    let mut p = Piece { more: 9, t0: 8.5, t1: 8.5, figure: 8.5 };
    let Piece { more, t0, t1, figure } = &mut p;
    let number = interface::ray_next(table, times, numbers, more, t0, t1, figure);
    (number, p)
}

pub fn next(s: &mut State, table: &[f32]) -> (u32, Piece) {
    next_with(table, &mut s.times, &mut s.cells)
}

pub fn none(p: &Piece) -> bool {
    p.more == 0 && [p.t0, p.t1, p.figure].iter().all(|v| v.to_bits() == 0)
}
