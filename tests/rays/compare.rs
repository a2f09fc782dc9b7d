//! Rays of the proved library beside DDAMajorantIterator, each state and each piece by its bits: random rays of every kind, states that a
//! caller makes up, and -0.0 by hand; and where the points of a piece lie, as a count.
//! usage: compare SEED RAYS STATES. The last line is 'N passed, M failed'; a kind that did not come up is a failure.

mod library;
#[path = "../oracle/src/random.rs"]
mod random;
mod source;
use source::{media, util};

use library::{bits, medium, next, next_with, none, open, open_with, same, Asked, State};
use media::{DDAMajorantIterator, MajorantGrid};
use random::Random;
use std::collections::{BTreeMap, HashMap};
use std::sync::Arc;
use util::base::Vector3f;
use util::geometry::{ray::Ray, Bounds3f};
use util::spectrum::SampledSpectrum;

struct Tally {
    kinds: BTreeMap<&'static str, u64>,
    failed: u64,
}

impl Tally {
    fn came(&mut self, kind: &'static str) {
        *self.kinds.entry(kind).or_default() += 1;
    }

    fn came_if(&mut self, test: bool, kind: &'static str) {
        if test {
            self.came(kind);
        }
    }

    fn differs(&mut self, what: String) {
        self.failed += 1;
        if self.failed <= 20 {
            println!("DIFFERS {what}");
        }
    }
}

/// Every kind that must come up.
const DUE: [&str; 41] = [
    "origin inside",
    "origin outside",
    "origin on a face",
    "origin on an edge",
    "origin on a corner",
    "along a face",
    "along an edge",
    "from corner to corner",
    "one zero direction",
    "two zero directions",
    "a direction of -0.0",
    "a direction that underflows",
    "tiny box",
    "huge box",
    "one cell",
    "64 cells",
    "128 cells",
    "different numbers",
    "backward axis",
    "a crossing that is NaN",
    "a crossing at infinity",
    "an infinite direction",
    "t1 < t0",
    "t1 = t0",
    "ends at t_max",
    "leaves the table",
    "as many pieces as can be",
    "no piece at all",
    "opening 23",
    "opening 18",
    "opening 4",
    "opening 22",
    "state 23",
    "state 18, length",
    "state 18, cell",
    "state 18, step",
    "state at its end",
    "state with a NaN time",
    "state with a NaN t_max",
    "state with a cell at an end of i32",
    "piece of a made-up state",
];

fn grid(a: &Asked, table: &Arc<[f32]>) -> MajorantGrid {
    let bounds = Bounds3f { min: Vector3f::of(a.low), max: Vector3f::of(a.high) };
    MajorantGrid::new(bounds, a.cells.map(|n| n as i32), table.clone())
}

/// The source's iterator. A direction that is a zero after division is handed over as +0.0: the recorded difference.
fn beside(a: &Asked, table: &Arc<[f32]>) -> DDAMajorantIterator {
    let mut d = a.direction;
    for axis in 0..3 {
        if d[axis] / (a.high[axis] - a.low[axis]) == 0.0 {
            d[axis] = 0.0;
        }
    }
    let ray = Ray::new(&Vector3f::of(a.origin), &Vector3f::of(d), a.t_max, 0.0);
    DDAMajorantIterator::new(ray, a.t_min, a.t_max, SampledSpectrum(1.0), grid(a, table))
}

/// One table for each three numbers: a large one takes longer to make than a ray to follow.
#[derive(Default)]
struct Tables(HashMap<[u32; 3], Arc<[f32]>>);

impl Tables {
    fn of(&mut self, cells: [u32; 3]) -> Arc<[f32]> {
        let make = || {
            let random = &mut Random::new(7, cells.iter().fold(0, |k, n| k * 129 + u64::from(*n)));
            let places = cells.iter().product::<u32>() as usize;
            (0..places)
                .map(|_| if random.percent(40) { 0.0 } else { random.unit() as f32 })
                .collect()
        };
        self.0.entry(cells).or_insert_with(make).clone()
    }
}

/// A float of any size.
fn any_float(random: &mut Random) -> f32 {
    f32::from_bits(random.next() as u32)
}

fn signed(random: &mut Random, size: f32) -> f32 {
    (random.unit() as f32 * 2.0 - 1.0) * size
}

fn cell_numbers(random: &mut Random) -> [u32; 3] {
    match random.below(8) {
        0 => [64; 3],
        1 => [128, 128, 128],
        2 => [1; 3],
        3 => [random.pick(&[1, 2, 64, 128]), 1, random.pick(&[1, 3, 5])],
        _ => [0; 3].map(|_| random.pick(&[1, 2, 3, 5, 7, 8, 16, 31, 64])),
    }
}

/// A place on one axis of the box: inside, on a face, or outside.
fn place(random: &mut Random, low: f32, high: f32, how: usize) -> f32 {
    match how {
        0 => low,
        1 => high,
        2 => low + (high - low) * 0.5,
        3 => low + (high - low) * (random.below(65) as f32 / 64.0),
        4 => low + (high - low) * signed(random, 2.0),
        _ => low + (high - low) * random.unit() as f32,
    }
}

fn random_ray(random: &mut Random) -> Asked {
    let size = random.pick(&[1.0f32, 1.0, 6.0, 1e-30, 1e-38, 1e30, 1e-3, 1e5]);
    let low = [0; 3].map(|_| if random.percent(40) { 0.0 } else { signed(random, size) });
    let high = [0, 1, 2].map(|i| low[i] + size * (0.1 + random.unit() as f32));
    let cells = cell_numbers(random);
    let hows = match random.below(7) {
        0 => [5, 5, 5],
        1 => [4, 4, 4],
        2 => [random.below(2), 5, 5],
        3 => [random.below(2), random.below(2), 5],
        4 => [random.below(2), random.below(2), random.below(2)],
        _ => [random.below(6), random.below(6), random.below(6)],
    };
    let mut order = [0, 1, 2];
    random.shuffle(&mut order);
    let origin = [0, 1, 2].map(|i| place(random, low[i], high[i], hows[order[i]]));
    let mut direction = [0, 1, 2].map(|i| match random.below(12) {
        0 => 0.0,
        1 => -0.0,
        2 => signed(random, 1e-44),
        3 => high[i] - origin[i],
        4 => low[i] - origin[i],
        5 => signed(random, 1e38),
        _ => signed(random, size),
    });
    match random.below(8) {
        0 => direction[random.below(3)] = 0.0,
        1 => {
            let kept = random.below(3);
            direction =
                [0, 1, 2].map(|i| if i == kept { direction[i] } else { random.pick(&[0.0, -0.0]) });
        }
        2 => {
            direction = [0, 1, 2].map(|i| {
                if origin[i] == high[i] {
                    low[i] - high[i]
                } else {
                    high[i] - origin[i]
                }
            })
        }
        _ => {}
    }
    let (t_min, t_max) = match random.below(6) {
        0 => (0.0, random.unit() as f32),
        1 => (signed(random, 2.0), signed(random, 2.0)),
        2 => (random.unit() as f32, 1e30),
        3 => (-1.0, 0.0),
        4 => (0.0, f32::MAX),
        _ => (0.0, 1.0 + random.unit() as f32),
    };
    Asked { low, high, cells, origin, direction, t_min, t_max }
}

/// From corner to corner, off the diagonal by a little: as many pieces as there can be.
fn across(random: &mut Random) -> Asked {
    let cells = random.pick(&[[64; 3], [5, 7, 3], [128; 3], [2, 2, 2], [64, 1, 8]]);
    let way = [0; 3].map(|_| random.percent(50));
    let off = [0; 3].map(|_| random.unit() as f32 * 1e-3);
    let origin = [0, 1, 2].map(|i| if way[i] { off[i] } else { 1.0 - off[i] });
    let direction = way.map(|w| if w { 1.0 } else { -1.0 });
    Asked { low: [0.0; 3], high: [1.0; 3], cells, origin, direction, t_min: 0.0, t_max: 2.0 }
}

fn inside(a: &Asked) -> bool {
    (0..3).all(|i| a.low[i] <= a.origin[i] && a.origin[i] <= a.high[i])
}

fn describe(tally: &mut Tally, a: &Asked) {
    let on = [0, 1, 2].map(|i| a.origin[i] == a.low[i] || a.origin[i] == a.high[i]);
    let faces = on.iter().filter(|f| **f).count();
    let inside = inside(a);
    let along = [0, 1, 2].map(|i| a.direction[i] / (a.high[i] - a.low[i]));
    let zeros = along.iter().filter(|d| **d == 0.0).count();
    let still = (0..3).filter(|&i| on[i] && along[i] == 0.0).count();
    tally.came_if(inside && faces == 0, "origin inside");
    tally.came_if(!inside, "origin outside");
    tally.came_if(inside && faces == 1, "origin on a face");
    tally.came_if(inside && faces == 2, "origin on an edge");
    tally.came_if(inside && faces == 3, "origin on a corner");
    tally.came_if(inside && still == 1, "along a face");
    tally.came_if(inside && still == 2, "along an edge");
    tally.came_if(
        faces == 3 && (0..3).all(|i| a.direction[i].abs() == a.high[i] - a.low[i]),
        "from corner to corner",
    );
    tally.came_if(zeros == 1, "one zero direction");
    tally.came_if(zeros == 2, "two zero directions");
    tally.came_if(a.direction.iter().any(|d| d.to_bits() == 0x80000000), "a direction of -0.0");
    tally.came_if(
        (0..3).any(|i| along[i] == 0.0 && a.direction[i] != 0.0),
        "a direction that underflows",
    );
    tally.came_if(along.iter().any(|d| d.is_infinite()), "an infinite direction");
    tally.came_if(along.iter().any(|d| *d < 0.0), "backward axis");
    tally.came_if((0..3).all(|i| a.high[i] - a.low[i] < 1e-20), "tiny box");
    tally.came_if((0..3).all(|i| a.high[i] - a.low[i] > 1e20), "huge box");
    tally.came_if(a.cells == [1; 3], "one cell");
    tally.came_if(a.cells == [64; 3], "64 cells");
    tally.came_if(a.cells == [128; 3], "128 cells");
    tally.came_if(a.cells[0] != a.cells[1] && a.cells[1] != a.cells[2], "different numbers");
}

/// The pieces of one ray, each beside the source's; how many.
fn whole_ray(tally: &mut Tally, a: &Asked, table: &Arc<[f32]>) -> u64 {
    describe(tally, a);
    let most = u64::from(a.cells.iter().sum::<u32>() - 2);
    let (number, mut s) = open(a, table);
    if number != 0 {
        tally.differs(format!("refused {number}: {a:?}"));
        return 0;
    }
    let mut i = beside(a, table);
    let (times, cells) = media::state(&i);
    if !same(&s, &State { times, cells }) {
        tally.differs(format!("opened {s:?}, the source {times:?} {cells:?}: {a:?}"));
        return 0;
    }
    tally.came_if(s.times[2..5].iter().any(|t| t.is_nan()), "a crossing that is NaN");
    tally.came_if(s.times[2..5].iter().any(|t| t.is_infinite()), "a crossing at infinity");
    let (mut count, mut end) = (0, a.t_min);
    loop {
        let kept = s;
        let (number, p) = next(&mut s, table);
        let Some(seg) = i.next() else {
            if number != 0 || !none(&p) || !same(&s, &kept) {
                tally.differs(format!(
                    "after {count} pieces {number} {p:?}, the source ends: {a:?}"
                ));
            }
            break;
        };
        count += 1;
        let (times, cells) = media::state(&i);
        let ours = (number, p.more, bits(p.t0), bits(p.t1), bits(p.figure));
        let theirs = (0, 1, bits(seg.t_min), bits(seg.t_max), bits(seg.sigma_maj.0));
        if ours != theirs || !same(&s, &State { times, cells }) {
            tally.differs(format!("piece {count}: {number} {p:?} {s:?}, the source {seg:?} {times:?} {cells:?}: {a:?}"));
            break;
        }
        if bits(p.t0) != bits(end) || count > most {
            tally.differs(format!(
                "piece {count} begins at {} and not at {end}, or is past {most}: {a:?}",
                p.t0
            ));
            break;
        }
        end = p.t1;
        tally.came_if(p.t1 < p.t0, "t1 < t0");
        tally.came_if(p.t1 < p.t0 && inside(a), "t1 < t0, origin inside");
        tally.came_if(p.t1 == p.t0, "t1 = t0");
    }
    tally.came_if(count == 0, "no piece at all");
    tally.came_if(count > 0 && bits(end) == bits(a.t_max), "ends at t_max");
    tally.came_if(count > 0 && bits(end) != bits(a.t_max), "leaves the table");
    tally.came_if(count == most && most > 1, "as many pieces as can be");
    count
}

// ---- openings that are refused

fn first_fault(a: &Asked, places: usize) -> u32 {
    let passes = |v: &f32| v.is_finite();
    if a.cells.iter().any(|n| !(1..=128).contains(n)) {
        return 23;
    }
    if places != a.cells.iter().product::<u32>() as usize {
        return 18;
    }
    if (0..3).any(|i| {
        !(a.low[i].is_finite()
            && a.high[i].is_finite()
            && a.low[i] < a.high[i]
            && (a.high[i] - a.low[i]).is_finite())
    }) {
        return 4;
    }
    let finite = a.origin.iter().all(passes)
        && a.direction.iter().all(passes)
        && a.t_min.is_finite()
        && a.t_max.is_finite();
    if finite && a.direction.iter().any(|d| *d != 0.0) {
        0
    } else {
        22
    }
}

fn refused_opening(tally: &mut Tally, random: &mut Random) {
    let mut a = random_ray(random);
    let bad = [f32::NAN, f32::INFINITY, f32::NEG_INFINITY];
    let mut places = a.cells.iter().product::<u32>() as usize;
    for _ in 0..1 + random.below(3) {
        let axis = random.below(3);
        match random.below(8) {
            0 => a.cells[axis] = random.pick(&[0, 129, u32::MAX, 1 << 31]),
            1 => places = random.pick(&[places + 1, places.saturating_sub(1), 0]),
            2 => a.high[axis] = random.pick(&[a.low[axis], f32::NAN, f32::INFINITY, -f32::MAX]),
            3 => a.origin[axis] = random.pick(&bad),
            4 => a.direction[axis] = random.pick(&bad),
            5 => a.direction = [0.0, -0.0, 0.0],
            6 => a.t_min = random.pick(&bad),
            _ => a.t_max = random.pick(&bad),
        }
    }
    let (number, s) = open(&a, &vec![0.0; places]);
    let due = first_fault(&a, places);
    if number != due || (due != 0 && !s.is_zero()) {
        tally.differs(format!("opening {number} {s:?}, {due} is due: {a:?} {places}"));
    }
    let kind = match due {
        23 => "opening 23",
        18 => "opening 18",
        4 => "opening 4",
        22 => "opening 22",
        _ => return,
    };
    tally.came(kind);
}

// ---- states that a caller makes up

fn made_up(tally: &mut Tally, random: &mut Random, tables: &mut Tables) {
    let mut cells = cell_numbers(random).map(|n| n.min(9));
    let table = tables.of(cells);
    let special = [f32::NAN, f32::INFINITY, f32::NEG_INFINITY, 0.0, -0.0, 1.0, f32::MAX, -f32::MAX];
    let mut times =
        [0.0; 8].map(
            |_: f32| if random.percent(50) { random.pick(&special) } else { any_float(random) },
        );
    if random.percent(50) {
        (times[0], times[1]) = (0.0, 1.0);
    }
    let ends = [i32::MIN, i32::MAX, -1, 128, i32::MIN + 1];
    let mut s = State { times, cells: [0; 9] };
    for axis in 0..3 {
        s.cells[axis] = if random.percent(6) {
            random.pick(&[0, 2, -2, i32::MIN, i32::MAX])
        } else {
            random.pick(&[1, -1])
        };
        s.cells[3 + axis] = if random.percent(6) {
            random.pick(&ends)
        } else {
            random.below(cells[axis] as usize) as i32
        };
        if random.percent(4) {
            cells[axis] = random.pick(&[0, 129, u32::MAX, 1 << 31]);
        }
        s.cells[6 + axis] = cells[axis] as i32;
    }
    let lent: Arc<[f32]> = if random.percent(5) { table[1..].into() } else { table };
    let kept = s;
    let (number, p) = next(&mut s, &lent);
    let sound = (0..3).all(|i| (0..kept.cells[6 + i]).contains(&kept.cells[3 + i]));
    let steps = kept.cells[..3].iter().all(|d| d.unsigned_abs() == 1);
    tally.came_if(kept.times.iter().any(|t| t.is_nan()), "state with a NaN time");
    tally.came_if(
        kept.cells[3..6].iter().any(|c| *c == i32::MIN || *c == i32::MAX),
        "state with a cell at an end of i32",
    );
    let (due, kind) = if cells.iter().any(|n| !(1..=128).contains(n)) {
        (23, "state 23")
    } else if lent.len() != cells.iter().product::<u32>() as usize {
        (18, "state 18, length")
    } else if kept.times[0] >= kept.times[1] {
        (0, "state at its end")
    } else if !sound {
        (18, "state 18, cell")
    } else if !steps {
        (18, "state 18, step")
    } else {
        (0, "piece of a made-up state")
    };
    tally.came(kind);
    let shown = format!("{number} {p:?} {s:?} of {kept:?} and {} figures", lent.len());
    if due != 0 {
        if number != due || !none(&p) || !s.is_zero() {
            tally.differs(format!("{due} is due: {shown}"));
        }
    } else if kind == "state at its end" {
        if number != 0 || !none(&p) || !same(&s, &kept) {
            tally.differs(format!("the end is due: {shown}"));
        }
    } else {
        piece_of_state(tally, &kept, &lent, (number, p, s), &shown);
    }
}

/// The source's `min` passes a NaN t_max over, and may answer either of two zeros; the request's words decide: the crossing if it is
/// below t_max, and t_max otherwise.
fn piece_of_state(
    tally: &mut Tally,
    kept: &State,
    table: &Arc<[f32]>,
    (number, p, s): (u32, library::Piece, State),
    shown: &str,
) {
    let n = kept.cells;
    let bounds = Bounds3f { min: Vector3f::of([0.0; 3]), max: Vector3f::of([1.0; 3]) };
    let mut i =
        media::made_up(kept.times, n, MajorantGrid::new(bounds, [n[6], n[7], n[8]], table.clone()));
    let seg = i.next().expect("a state that is short of its end");
    let (mut times, cells) = media::state(&i);
    let t_max = kept.times[1];
    let axis = (0..3).find(|&a| cells[3 + a] != n[3 + a]).expect("a step");
    let crossing = kept.times[2 + axis];
    let end = if crossing < t_max { crossing } else { t_max };
    tally.came_if(t_max.is_nan(), "state with a NaN t_max");
    if t_max.is_nan() || (crossing == 0.0 && t_max == 0.0) {
        times[0] = if bits(times[0]) == bits(seg.t_max) { end } else { times[0] };
    } else if bits(seg.t_max) != bits(end) {
        tally.differs(format!("the source ends at {} and not at {end}: {shown}", seg.t_max));
    }
    let ours = (number, p.more, bits(p.t0), bits(p.t1), bits(p.figure));
    if ours != (0, 1, bits(seg.t_min), bits(end), bits(seg.sigma_maj.0))
        || !same(&s, &State { times, cells })
    {
        tally.differs(format!("the source {seg:?} {times:?} {cells:?}: {shown}"));
    }
}

// ---- by hand

/// What `run` calls of `next` give of a ray.
fn run(a: &Asked, table: &[f32]) -> Vec<[u32; 3]> {
    let (number, mut s) = open(a, table);
    assert_eq!(number, 0, "{a:?}");
    let mut pieces = Vec::new();
    loop {
        match next(&mut s, table) {
            (0, p) if p.more == 1 => pieces.push([p.t0, p.t1, p.figure].map(bits)),
            _ => return pieces,
        }
    }
}

/// -0.0 counts as +0.0; the source divides by it, which gives crossings of the other sign.
fn minus_zero(tally: &mut Tally) {
    let table: Arc<[f32]> = [1.0, 0.5, 0.25, 2.0].into();
    let base = Asked {
        low: [0.0; 3],
        high: [1.0; 3],
        cells: [4, 1, 1],
        origin: [0.0, 0.5, 0.5],
        direction: [1.0, 0.0, 0.0],
        t_min: 0.0,
        t_max: 2.0,
    };
    let plain = run(&base, &table);
    if plain.len() != 4 {
        tally.differs(format!("along x {} pieces", plain.len()));
    }
    for direction in [[1.0, -0.0, 0.0], [1.0, 0.0, -0.0], [1.0, -0.0, -0.0], [1.0, -1e-45, 0.0]] {
        let high = if direction[1] < 0.0 { [1.0, 4.0, 1.0] } else { [1.0; 3] };
        let a = Asked { direction, high, ..base.clone() };
        let ours = run(&a, &table);
        if ours != plain {
            tally.differs(format!("{direction:?}: {ours:?} and not {plain:?}"));
        }
        let ray = Ray::new(&Vector3f::of(a.origin), &Vector3f::of(direction), a.t_max, 0.0);
        let mut i =
            DDAMajorantIterator::new(ray, a.t_min, a.t_max, SampledSpectrum(1.0), grid(&a, &table));
        let mut theirs = Vec::new();
        while let Some(seg) = i.next() {
            theirs.push([seg.t_min, seg.t_max, seg.sigma_maj.0].map(bits));
        }
        if theirs == plain {
            tally.differs(format!("{direction:?}: the source no longer differs"));
        }
    }
}

/// A small array of another length is 18, before anything else is looked at, and what there is is zeroed.
fn lengths(tally: &mut Tally) {
    let table = [1.0f32; 4];
    let a = Asked {
        low: [0.0; 3],
        high: [f32::NAN; 3],
        cells: [0, 1, 1],
        origin: [f32::NAN; 3],
        direction: [0.0; 3],
        t_min: 0.0,
        t_max: 2.0,
    };
    let (m, zero) = (medium(&a), |t: &[f32], c: &[i32]| {
        t.iter().all(|v| v.to_bits() == 0) && c.iter().all(|v| *v == 0)
    });
    for (ml, cl, tl, nl) in [
        (17, 3, 8, 9),
        (18, 2, 8, 9),
        (18, 3, 7, 9),
        (18, 3, 8, 8),
        (0, 0, 0, 0),
        (18, 3, 9, 9),
        (18, 3, 8, 10),
    ] {
        let (mut times, mut numbers) = (vec![3.0; tl], vec![3; nl]);
        let number = open_with(&m[..ml], &a.cells[..cl], &table, &a, &mut times, &mut numbers);
        if number != 18 || !zero(&times, &numbers) {
            tally.differs(format!("opening with lengths {ml} {cl} {tl} {nl}: {number}"));
        }
        let (mut times, mut numbers) = (vec![3.0; tl], vec![3; nl]);
        let (number, p) = next_with(&table, &mut times, &mut numbers);
        if (tl, nl) != (8, 9) && (number != 18 || !none(&p) || !zero(&times, &numbers)) {
            tally.differs(format!("a piece with lengths {tl} {nl}: {number} {p:?}"));
        }
    }
}

// ---- where the points of a piece lie

#[derive(Default)]
struct Off {
    points: u64,
    outside: u64,
    furthest: f64,
}

/// Points at t inside a piece, in the exact numbers of the box: how far from the piece's cell, in widths of a cell.
fn points(off: &mut Off, random: &mut Random, tables: &mut Tables) {
    let size = random.pick(&[0.1f32, 1.0, 6.0, 100.0]);
    let low = [0; 3].map(|_| signed(random, size));
    let high = [0, 1, 2].map(|i| low[i] + size * (0.5 + random.unit() as f32));
    let cells = random.pick(&[[64u32; 3], [64; 3], [128; 3], [16, 64, 4]]);
    let inside = |random: &mut Random| {
        [0, 1, 2].map(|i| low[i] + (high[i] - low[i]) * (0.001 + 0.998 * random.unit() as f32))
    };
    let (origin, target) = (inside(random), inside(random));
    let direction = [0, 1, 2].map(|i| target[i] - origin[i]);
    let a = Asked { low, high, cells, origin, direction, t_min: 0.0, t_max: 1.0 };
    let table = tables.of(cells);
    let (number, mut s) = open(&a, &table);
    if number != 0 {
        return;
    }
    loop {
        let cell = s.cells;
        let (_, p) = next(&mut s, &table);
        if p.more == 0 {
            return;
        }
        if !(p.t0 < p.t1) {
            continue;
        }
        for _ in 0..4 {
            let t = f64::from(p.t0) + (f64::from(p.t1) - f64::from(p.t0)) * random.unit();
            let far = (0..3).map(|i| {
                let at = f64::from(origin[i]) + t * f64::from(direction[i]);
                let place = (at - f64::from(low[i])) / (f64::from(high[i]) - f64::from(low[i]))
                    * f64::from(cells[i]);
                let c = f64::from(cell[3 + i]);
                (c - place).max(place - (c + 1.0)).max(0.0)
            });
            let far = far.fold(0.0, f64::max);
            off.points += 1;
            off.outside += u64::from(far > 0.0);
            off.furthest = off.furthest.max(far);
        }
    }
}

fn main() {
    let numbers: Vec<u64> = std::env::args()
        .skip(1)
        .map(|w| w.parse().expect("usage: compare SEED RAYS STATES"))
        .collect();
    let [seed, rays, states] = numbers[..] else { panic!("usage: compare SEED RAYS STATES") };
    let mut tally = Tally { kinds: BTreeMap::new(), failed: 0 };
    let mut tables = Tables::default();
    let (mut pieces, mut whole) = (0, 0);
    for case in 0..rays {
        let random = &mut Random::new(seed, case);
        let a = if case % 16 == 0 { across(random) } else { random_ray(random) };
        if first_fault(&a, a.cells.iter().product::<u32>() as usize) != 0 {
            continue;
        }
        let table = tables.of(a.cells);
        whole += 1;
        pieces += whole_ray(&mut tally, &a, &table);
    }
    let mut off = Off::default();
    for case in 0..states {
        let random = &mut Random::new(seed ^ 0x5eed, case);
        made_up(&mut tally, random, &mut tables);
        if case % 4 == 0 {
            refused_opening(&mut tally, random);
        }
        if case % 64 == 0 {
            points(&mut off, random, &mut tables);
        }
    }
    minus_zero(&mut tally);
    lengths(&mut tally);
    println!("{whole} rays, {pieces} pieces beside the source; {states} states that a caller makes up; {} differ", tally.failed);
    for (kind, count) in &tally.kinds {
        println!("  {count:>8}  {kind}");
    }
    println!(
        "points inside pieces: {}, outside the piece's cell: {}, furthest {:.6} of a cell",
        off.points, off.outside, off.furthest
    );
    let missing: Vec<_> = DUE.iter().filter(|k| !tally.kinds.contains_key(*k)).collect();
    for kind in &missing {
        println!("FAILED did not come up: {kind}");
    }
    let passed = u64::from(tally.failed == 0 && missing.is_empty());
    println!("{passed} passed, {} failed", 1 - passed);
    std::process::exit(if passed == 1 { 0 } else { 1 });
}
