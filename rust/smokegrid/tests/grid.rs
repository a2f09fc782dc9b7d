//! Grids by hand and the sample that ships, through the library.

mod common;

use common::{chain, put32, put64, put_float, resize, tile, LEAF, LOWER, UPPER};
use smokegrid::{Counts, Grid, Level, Load, Maxima, Reading};

fn number(bytes: &[u8]) -> u32 {
    Grid::decode(bytes).map_or_else(|refusal| refusal.number(), |_| 0)
}

fn edited(mut bytes: Vec<u8>, edit: impl FnOnce(&mut Vec<u8>)) -> Vec<u8> {
    edit(&mut bytes);
    bytes
}

#[test]
fn a_tile_is_read() {
    let grid = Grid::decode(&tile()).unwrap();
    assert_eq!(grid.counts(), Counts { roots: 1, upper: 0, lower: 0, leaf: 0 });
    assert_eq!(grid.background(), 0.0);
    assert_eq!(grid.table_bytes(), 20);
    assert_eq!(grid.get_value([-1, 0, 0]), Ok(0.5));
    assert_eq!(grid.get_value([-4096, 4095, 4095]), Ok(0.5));
    assert_eq!(grid.get_value([-4097, 0, 0]), Ok(0.0));
    assert_eq!(grid.get_value([0, 0, 0]), Ok(0.0));
    assert_eq!((grid.validate(), grid.validate_density()), (Ok(()), Ok(())));
}

/// "NanoVDB0" and "NanoVDB1" are one; "NanoVDB2" is a file's, and nothing else passes.
#[test]
fn either_mark_is_read() {
    let marked = |mark: &[u8; 8]| edited(chain(), |b| b[..8].copy_from_slice(mark));
    let [older, newer] = [b"NanoVDB0", b"NanoVDB1"].map(|m| Grid::decode(&marked(m)).unwrap());
    assert_eq!(older.counts(), newer.counts());
    assert_eq!(older.medium(), newer.medium());
    for at in [[-4096, 0, 0], [-4095, 0, 0], [-3969, 127, 127], [0, 0, 0], [i32::MIN; 3]] {
        assert_eq!(older.get_value(at), newer.get_value(at), "{at:?}");
    }
    let figures = [&older, &newer].map(|grid| grid.build_majorant().unwrap());
    assert_eq!(figures[0].figures(), figures[1].figures());
    for mark in [b"NanoVDB2", b"NanoVDB3", b"nanoVDB1", b"NanoVDB\0", b"1BDVonaN"] {
        assert_eq!(number(&marked(mark)), 3, "{mark:?}");
    }
}

#[test]
fn the_medium_is_that_of_the_header() {
    let medium = Grid::decode(&tile()).unwrap().medium();
    assert_eq!((medium.world_min, medium.world_max), ([-8.0, 0.0, 0.0], [0.0, 8.0, 8.0]));
    assert_eq!((medium.index_min, medium.index_max), ([-8, 0, 0], [-1, 7, 7]));
    assert_eq!(medium.inverse_map, [[1.0, 0.0, 0.0], [0.0, 1.0, 0.0], [0.0, 0.0, 1.0]]);
    assert_eq!(medium.translation, [0.0; 3]);
}

#[test]
fn world_points_become_index_positions() {
    let bytes = edited(tile(), |b| {
        put_float(b, 332, 2.0);
        put_float(b, 368, 0.5);
    });
    let grid = Grid::decode(&bytes).unwrap();
    assert_eq!(grid.world_to_index_f([-1.0, 2.0, 3.5]), Ok([-3.0, 2.0, 3.5]));
}

#[test]
fn a_box_has_its_greatest_density_and_no_less_than_zero() {
    let grid = Grid::decode(&chain()).unwrap();
    assert_eq!(grid.box_maximum([-4096, 0, 0], [-4096, 0, 0]), Ok(0.25));
    assert_eq!(grid.box_maximum([-4096, 0, 0], [-3969, 127, 127]), Ok(0.75));
    assert_eq!(grid.box_maximum([-4095, 0, 0], [-4090, 7, 7]), Ok(0.0));
    assert_eq!(grid.box_maximum([1, 0, 0], [0, 9, 9]), Ok(0.0));
    assert_eq!(grid.box_maximum([i32::MIN; 3], [i32::MAX; 3]), Ok(0.75));
}

#[test]
fn a_box_has_its_load_and_a_cube_the_most_that_it_can_be() {
    let grid = Grid::decode(&chain()).unwrap();
    let load = |low, high| grid.box_maximum_counted(low, high).unwrap();
    let read = |l: Load| (l.maximum, l.roots, l.upper, l.lower, l.leaf);
    assert_eq!(read(load([-4096, 0, 0], [-4096, 0, 0])), (0.25, 1, 1, 1, 1));
    assert_eq!(read(load([-4096, 0, 0], [-3969, 127, 127])), (0.75, 1, 1, 4096, 512));
    assert_eq!(read(load([1, 0, 0], [0, 9, 9])), (0.0, 0, 0, 0, 0));
    assert_eq!(load([-4096, 0, 0], [-3969, 127, 127]).total(), 1 + 1 + 4096 + 512);
    let most = [0, 1, 2, 8, 4096].map(Load::most);
    assert_eq!(most, [0, 4, 32, 8 + 8 + 8 + 512, 8 + 35_937 + 135_005_697 + 68_719_476_736]);
}

#[test]
fn a_list_of_boxes_is_each_box_and_the_greatest() {
    let grid = Grid::decode(&chain()).unwrap();
    let boxes = [
        ([-4096, 0, 0], [-4096, 0, 0]),
        ([-4095, 0, 0], [-4090, 7, 7]),
        ([-4096, 0, 0], [-3969, 127, 127]),
        ([1, 0, 0], [0, 9, 9]),
    ];
    let maxima = grid.box_maxima(&boxes).unwrap();
    assert_eq!(maxima.each, [0.25, 0.0, 0.75, 0.0]);
    assert_eq!(maxima.greatest, 0.75);
    for (maximum, (low, high)) in maxima.each.iter().zip(boxes) {
        assert_eq!(grid.box_maximum(low, high), Ok(*maximum));
    }
    assert_eq!(grid.box_maxima(&boxes[..2]).unwrap().greatest, 0.25);
    assert_eq!(grid.box_maxima(&[]), Ok(Maxima { each: vec![], greatest: 0.0 }));
}

#[test]
fn a_value_of_each_level_is_read() {
    let grid = Grid::decode(&chain()).unwrap();
    assert_eq!(grid.counts(), Counts { roots: 1, upper: 1, lower: 1, leaf: 1 });
    assert_eq!(grid.get_value([-4096, 0, 0]), Ok(0.25));
    assert_eq!(grid.get_value([-4096, 0, 1]), Ok(0.0));
    assert_eq!(grid.get_value([-3969, 127, 127]), Ok(0.75));
    assert_eq!(grid.get_value([-1, 4095, 4095]), Ok(0.125));
}

#[test]
fn the_level_that_spoke_is_told() {
    let grid = Grid::decode(&chain()).unwrap();
    for (at, value, level) in [
        ([-4096, 0, 0], 0.25, Level::Leaf),
        ([-4096, 0, 1], 0.0, Level::Leaf),
        ([-3969, 127, 127], 0.75, Level::LowerTile),
        ([-1, 4095, 4095], 0.125, Level::UpperTile),
        ([0, 0, 0], 0.0, Level::Background),
    ] {
        assert_eq!(grid.reading(at), Ok(Reading { value, level }), "{at:?}");
    }
    let grid = Grid::decode(&tile()).unwrap();
    assert_eq!(grid.reading([-1, 0, 0]), Ok(Reading { value: 0.5, level: Level::RootTile }));
    assert_eq!(grid.reading([0, 0, 0]), Ok(Reading { value: 0.0, level: Level::Background }));
}

/// The level is where the lookup stopped, not what the value is.
#[test]
fn a_root_tile_with_the_value_of_the_background_is_a_root_tile() {
    let grid = Grid::decode(&edited(tile(), |b| put_float(b, 820, 0.0))).unwrap();
    assert_eq!(grid.background(), 0.0);
    assert_eq!(grid.reading([-1, 0, 0]), Ok(Reading { value: 0.0, level: Level::RootTile }));
}

#[test]
fn two_roots_may_share_a_node() {
    let bytes = edited(chain(), |b| {
        let length = b.len() + 64 + 64;
        resize(b, length);
        let root = length - 128;
        b.copy_within(736..832, root);
        put64(b, 696, (root - 672) as u64);
        put32(b, root + 24, 2);
        put64(b, root + 72, (UPPER as u64).wrapping_sub(root as u64));
        put64(b, root + 96, 7);
        put64(b, root + 104, (UPPER as u64).wrapping_sub(root as u64));
    });
    let grid = Grid::decode(&bytes).unwrap();
    assert_eq!(grid.counts(), Counts { roots: 2, upper: 1, lower: 1, leaf: 1 });
    assert_eq!(grid.get_value([0, 0, 7 * 4096]), Ok(0.25));
    assert_eq!(grid.get_value([-4096, 0, 0]), Ok(0.25));
}

/// 9 would say that our tables were too short.
#[test]
fn node_counts_that_lie_are_10_and_never_9() {
    for at in [704, 708, 712] {
        for count in [0, 2, 3, 1000, u32::MAX] {
            let bytes = edited(chain(), |b| put32(b, at, count));
            assert_eq!(number(&bytes), 10, "count {count} at {at}");
        }
    }
}

#[test]
fn a_tile_count_past_the_end_is_5() {
    for count in [2, 1000, u32::MAX] {
        assert_eq!(number(&edited(tile(), |b| put32(b, 760, count))), 5, "{count} tiles");
    }
}

#[test]
fn a_cut_file_is_refused() {
    let whole = chain();
    for length in [0, 1, 671] {
        assert_eq!(number(&whole[..length]), 2, "{length} bytes");
    }
    for length in [672, 736, 831, whole.len() - 1] {
        assert_eq!(number(&whole[..length]), 3, "{length} bytes");
        assert_eq!(number(&edited(whole.clone(), |b| resize(b, length))), 5, "{length} bytes");
    }
}

#[test]
fn each_fault_has_its_number() {
    let nan = f32::NAN.to_bits();
    for (due, edit) in [
        (3, &(|b: &mut Vec<u8>| b[0] ^= 1) as &dyn Fn(&mut Vec<u8>)),
        (4, &|b| put64(b, 560, 8f64.to_bits())),
        (6, &|b| put64(b, UPPER + 8_256, 32)),
        (7, &|b| put64(b, 800, 1 << 62)),
        (8, &|b| put64(b, LOWER + 1_088, (LEAF - LOWER + 16) as u64)),
        (12, &|b| put32(b, LEAF + 96 + 4 * 511, nan)),
        (13, &|b| put_float(b, 332, -1.0)),
        (14, &|b| put32(b, 736, 100)),
        (15, &|b| put_float(b, LOWER + 1_088 + 8, -0.5)),
    ] {
        let bytes = edited(chain(), |b| edit(b));
        assert_eq!(number(&bytes), due);
    }
}

#[test]
fn a_repeated_block_is_11() {
    let bytes = edited(tile(), |b| {
        resize(b, 864);
        put32(b, 760, 2);
        b.copy_within(800..832, 832);
    });
    assert_eq!(number(&bytes), 11);
}

#[test]
fn the_cells_of_a_tile_all_have_its_density() {
    let grid = Grid::decode(&tile()).unwrap();
    let cells = grid.build_majorant().unwrap();
    assert_eq!((cells.cells(), grid.medium().cells), ([64; 3], [64; 3]));
    assert_eq!(cells.figures(), [0.5; 64 * 64 * 64]);
    assert_eq!((cells.clear(), cells.greatest()), (0, (0.5, [0, 0, 0])));
    for numbers in [[1, 1, 1], [128, 1, 3], [5, 100, 7]] {
        let cells = grid.build_majorant_with(numbers).unwrap();
        let all = numbers.iter().map(|n| *n as usize).product();
        assert_eq!((cells.cells(), cells.figures()), (numbers, &vec![0.5; all][..]));
    }
}

#[test]
fn a_number_of_cells_outside_1_to_128_is_23() {
    let grid = Grid::decode(&tile()).unwrap();
    for cells in [[0, 64, 64], [64, 129, 64], [64, 64, u32::MAX]] {
        assert_eq!(grid.build_majorant_with(cells).unwrap_err().number(), 23);
    }
}

#[test]
fn a_build_outside_i32_is_16() {
    let bytes = edited(tile(), |b| put64(b, 560, (-2147483648f64).to_bits()));
    let refusal = Grid::decode(&bytes).unwrap().build_majorant().unwrap_err();
    assert_eq!(refusal.number(), 16);
}

/// The voxel of a grid of one upper and one lower node at block (0, 0, 0), read from the bytes.
fn voxel(bytes: &[u8], at: [i32; 3]) -> f32 {
    let u64_at = |at: usize| u64::from_le_bytes(bytes[at..at + 8].try_into().unwrap());
    let f32_at = |at: usize| f32::from_le_bytes(bytes[at..at + 4].try_into().unwrap());
    let root = 672 + u64_at(696) as usize;
    if at.iter().any(|c| !(0..4096).contains(c)) {
        return f32_at(root + 28);
    }
    let mut node = root + u64_at(root + 72) as usize;
    for (mask, table, side, voxels) in [(4_128, 8_256, 32, 128), (544, 1_088, 16, 8)] {
        let [x, y, z] = at.map(|c| (c / voxels) as usize % side);
        let slot = (x * side + y) * side + z;
        if bytes[node + mask + slot / 8] >> (slot % 8) & 1 == 0 {
            return f32_at(node + table + 8 * slot);
        }
        node += u64_at(node + table + 8 * slot) as usize;
    }
    let [x, y, z] = at.map(|c| c as usize % 8);
    f32_at(node + 96 + 4 * ((x * 8 + y) * 8 + z))
}

#[test]
fn the_sample_reads_as_its_bytes_do() {
    let bytes = std::fs::read(concat!(env!("CARGO_MANIFEST_DIR"), "/../../samples/plume.grid"));
    let bytes = bytes.unwrap();
    let grid = Grid::decode(&bytes).unwrap();
    let (mut greatest, mut smoky) = (0f32, 0);
    for x in -2..27 {
        for y in -2..27 {
            for z in -2..27 {
                let due = voxel(&bytes, [x, y, z]);
                assert_eq!(grid.get_value([x, y, z]), Ok(due), "({x}, {y}, {z})");
                greatest = greatest.max(due);
                smoky += usize::from(due > 0.0);
            }
        }
    }
    assert!(smoky > 1000);
    assert_eq!(grid.box_maximum([-2; 3], [26; 3]), Ok(greatest));
    let cells = grid.build_majorant().unwrap();
    assert_eq!(cells.greatest().0, greatest);
    assert!(cells.clear() > 0);
}

/// The tile of 0.5 fills block (-1, 0, 0): from voxel -1 to voxel 0 on x the density falls to nothing.
#[test]
fn densities_between_voxels_are_mixed() {
    let grid = Grid::decode(&tile()).unwrap();
    let (medium, cells) = (grid.medium(), grid.build_majorant().unwrap());
    let at = |x: f32| [x, 4.0, 4.0];
    for x in [-8.0, -4.5, -1.0] {
        assert_eq!(grid.mix(at(x)), Ok(0.5), "{x}");
    }
    let position = grid.world_to_index_f(at(-0.001)).unwrap()[0];
    let t = position - position.floor();
    assert_eq!(grid.mix(at(-0.001)), Ok((1.0 - t) * 0.5 + t * 0.0));
    for point in [medium.world_min, medium.world_max, at(-0.3)] {
        let cell = cells.enclosing(&medium, point).unwrap();
        assert!(grid.mix(point).unwrap() <= cells.figure(cell).unwrap() * (1.0 + 1e-6));
    }
    for outside in [at(0.5), at(-8.5), at(f32::NAN), at(f32::INFINITY)] {
        assert_eq!(grid.mix(outside).unwrap_err().number(), 24);
        assert_eq!(cells.enclosing(&medium, outside), None);
    }
}
