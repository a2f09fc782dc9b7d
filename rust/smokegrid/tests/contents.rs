//! Whole .nvdb files, through the library.

mod common;

use common::{chain, put32, segment, tile};
use smokegrid::{grid_name, grid_part, Contents, Grid, Listed};

/// Three grids in two segments, of both marks; one name stands twice.
fn file() -> Vec<u8> {
    let mut bytes = segment(b"NanoVDB0", 0, &[("density\0", &tile()), ("heat\0", &chain())]);
    bytes.extend(segment(b"NanoVDB2", 0, &[("density\0", &chain())]));
    bytes
}

fn number(bytes: &[u8], n: u64) -> u32 {
    let [part, name] = [grid_part(bytes, n), grid_name(bytes, n)];
    let [part, name] = [part, name].map(|answer| answer.map_or_else(|r| r.number(), |_| 0));
    assert_eq!(part, name);
    part
}

#[test]
fn the_list_is_what_the_library_says_grid_by_grid() {
    let bytes = file();
    let contents = Contents::of(&bytes).unwrap();
    assert_eq!(contents.grids().len(), 3);
    for (n, grid) in contents.grids().iter().enumerate() {
        let [part, name] = [grid_part, grid_name].map(|ask| ask(&bytes, n as u64).unwrap());
        assert_eq!((grid.index, grid.name, &bytes[grid.place.clone()]), (n, name, part));
    }
    let names: Vec<_> = contents.grids().iter().map(Listed::name).collect();
    assert_eq!(names, ["density", "heat", "density"]);
    let sizes: Vec<_> = contents.grids().iter().map(Listed::size).collect();
    assert_eq!(sizes, [832, chain().len(), chain().len()]);
    assert_eq!(number(&bytes, 3), 21);
    assert_eq!(number(&bytes, u64::MAX), 21);
}

#[test]
fn a_name_may_stand_twice() {
    let bytes = file();
    let contents = Contents::of(&bytes).unwrap();
    let numbers = |name| contents.named(name).iter().map(|grid| grid.index).collect::<Vec<_>>();
    assert_eq!(
        [numbers("density"), numbers("heat"), numbers("dens")],
        [vec![0, 2], vec![1], vec![]]
    );
}

/// Names without a zero byte, with one inside, and of one zero byte alone.
#[test]
fn a_name_ends_at_its_first_zero_byte() {
    let grid = tile();
    let bytes = segment(b"NanoVDB2", 0, &[("a", &grid), ("b\0c", &grid), ("\0", &grid)]);
    let contents = Contents::of(&bytes).unwrap();
    let names: Vec<_> = contents.grids().iter().map(|grid| (grid.name(), grid.name)).collect();
    let due: [(&str, &[u8]); 3] = [("a", b"a"), ("b", b"b\0c"), ("", b"\0")];
    assert_eq!(names, due.map(|(text, bytes)| (text.into(), bytes)));
}

#[test]
fn a_grid_out_of_a_file_loads_as_its_bytes_alone() {
    let bytes = file();
    for (n, alone) in [tile(), chain(), chain()].iter().enumerate() {
        let [taken, alone] =
            [Grid::from_file(&bytes, n as u64), Grid::decode(alone)].map(|grid| grid.unwrap());
        assert_eq!((taken.counts(), taken.medium()), (alone.counts(), alone.medium()));
        for at in [[-4096, 0, 0], [-4095, 0, 0], [-3969, 127, 127], [0, 0, 0]] {
            assert_eq!(taken.reading(at), alone.reading(at), "{at:?}");
        }
        let [taken, alone] = [taken, alone].map(|grid| grid.build_majorant().unwrap());
        assert_eq!(taken.figures(), alone.figures());
    }
    assert_eq!(Grid::from_file(&bytes, 3).unwrap_err().number(), 21);
}

/// Of a grid that is damaged the decode speaks, once the file has passed.
#[test]
fn a_damaged_grid_is_refused_by_the_decode() {
    let mut grid = chain();
    put32(&mut grid, 704, 2);
    let bytes = segment(b"NanoVDB0", 0, &[("whole", &tile()), ("damaged", &grid)]);
    assert_eq!(Grid::from_file(&bytes, 0).unwrap().counts().roots, 1);
    assert_eq!(Grid::from_file(&bytes, 1).unwrap_err().number(), 10);
}

#[test]
fn a_later_segment_is_tested_whatever_is_asked() {
    let [first, cut] = [segment(b"NanoVDB0", 0, &[("a", &tile())]), vec![0; 15]];
    let [packed, other] =
        [b"NanoVDB2", b"NanoVDB1"].map(|mark| segment(mark, 1, &[("b", &tile())]));
    for (second, due) in
        [(&cut[..1], 19), (&cut, 19), (&packed[..193], 20), (&packed[..192], 19), (&other, 19)]
    {
        let bytes = [&first, second].concat();
        for n in [0, 1, 7] {
            assert_eq!(number(&bytes, n), due, "{} bytes", second.len());
        }
        assert_eq!(Contents::of(&bytes).unwrap_err().number(), due);
    }
    assert_eq!(number(&[], 0), 19);
}

/// A raw grid and a file may begin alike: each is no other.
#[test]
fn a_raw_grid_is_no_file() {
    assert_eq!(number(&tile(), 0), 19);
    assert_eq!(Grid::decode(&segment(b"NanoVDB0", 0, &[("a", &tile())])).unwrap_err().number(), 3);
}
