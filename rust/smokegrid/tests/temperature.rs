//! A temperature grid beside a density grid, through the library.

mod common;

use common::{chain, put32, put64, put_float, tile};
use smokegrid::Grid;

/// The tile's grid with this value and background, and another world box and index box.
fn heat(value: f32, background: f32) -> Vec<u8> {
    let mut bytes = tile();
    put_float(&mut bytes, 820, value);
    put_float(&mut bytes, 736 + 28, background);
    for axis in 0..3 {
        put64(&mut bytes, 560 + 8 * axis, (-1000.0f64).to_bits());
        put64(&mut bytes, 584 + 8 * axis, 1000.0f64.to_bits());
        put32(&mut bytes, 748 + 4 * axis, 99);
    }
    bytes
}

fn with(bytes: &[u8], offset: f32, scale: f32) -> Result<Grid, u32> {
    let grid = Grid::decode(&chain()).unwrap();
    grid.with_temperature(bytes, offset, scale).map_err(|refusal| refusal.number())
}

#[test]
fn a_reading_is_the_value_less_the_offset_times_the_scale() {
    let grid = with(&heat(25.0, -5.0), 20.0, 2.0).unwrap();
    assert!(grid.has_temperature());
    assert_eq!(grid.temperature([-1, 0, 0]), Ok(10.0));
    assert_eq!(grid.temperature([0, 0, 0]), Ok(-50.0));
    assert_eq!(grid.get_value([-1, 0, 0]), Grid::decode(&chain()).unwrap().get_value([-1, 0, 0]));
}

#[test]
fn without_a_temperature_grid_a_reading_is_0() {
    let grid = Grid::decode(&tile()).unwrap();
    assert!(!grid.has_temperature());
    assert_eq!(grid.temperature([-1, 0, 0]).map(f32::to_bits), Ok(0));
}

/// Record and figures are the density grid's, whose box is another.
#[test]
fn record_and_figures_do_not_see_it() {
    let (plain, heated) =
        (Grid::decode(&chain()).unwrap(), with(&heat(1.0, 2.0), 0.5, 3.0).unwrap());
    assert_eq!((plain.medium(), plain.counts()), (heated.medium(), heated.counts()));
    let [plain, heated] = [plain, heated].map(|grid| grid.build_majorant().unwrap());
    assert_eq!(plain.figures(), heated.figures());
}

#[test]
fn an_infinite_difference_times_0_is_a_nan() {
    let grid = with(&heat(f32::MAX, 0.0), f32::MIN, 0.0).unwrap();
    assert_eq!(grid.temperature([-1, 0, 0]).map(f32::to_bits), Ok(0x7fc0_0000));
    let grid = with(&heat(f32::MAX, 0.0), f32::MIN, 1.0).unwrap();
    assert_eq!(grid.temperature([-1, 0, 0]), Ok(f32::INFINITY));
}

/// 27 once the grid has loaded; before that its own number.
#[test]
fn factors_are_finite() {
    for bad in [f32::NAN, f32::INFINITY, f32::NEG_INFINITY] {
        assert_eq!(with(&heat(1.0, 0.0), bad, 1.0).err(), Some(27));
        assert_eq!(with(&heat(1.0, 0.0), 1.0, bad).err(), Some(27));
        assert_eq!(with(&heat(f32::NAN, 0.0), bad, 1.0).err(), Some(12));
        assert_eq!(with(&[], bad, bad).err(), Some(2));
    }
}

/// A grid with nodes, lent what its bytes state.
#[test]
fn a_grid_with_nodes_is_read_at_every_level() {
    let mut bytes = chain();
    put_float(&mut bytes, common::LEAF + 96, -0.25);
    let grid = with(&bytes, 0.0, 4.0).unwrap();
    assert_eq!(grid.temperature([-4096, 0, 0]), Ok(-1.0));
    let density = Grid::decode(&chain()).unwrap();
    for at in [[-4095, 0, 0], [-3969, 127, 127], [-1, 4095, 4095], [0, 0, 0]] {
        assert_eq!(grid.temperature(at), density.get_value(at).map(|value| value * 4.0), "{at:?}");
    }
}
