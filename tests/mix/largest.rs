//! One step of the mix of two voxels of the largest f32, for each t from 0 to 1: how many t there are, and how many give an infinity or a NaN.
//! A step rises with its voxels, so where none does here, none does for any two voxels.

fn main() {
    let (mut all, mut bad) = (0u64, 0u64);
    for bits in 0..=1.0f32.to_bits() {
        let t = f32::from_bits(bits);
        let mixed = (1.0 - t) * f32::MAX + t * f32::MAX;
        all += 1;
        bad += u64::from(!mixed.is_finite());
    }
    println!("{all} parts, {bad} that are not finite");
    std::process::exit(i32::from(bad > 0));
}
