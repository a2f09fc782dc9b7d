//! DDAMajorantIterator as it stands in the source folder, with stand-ins for what it imports. Its text is included when this crate
//! is compiled (SMOKE_SOURCE names the folder) and is neither changed nor copied.

pub mod util {
    pub mod base {
        pub type Float = f32;

        #[derive(Clone, Copy, Debug)]
        pub struct Vector3f {
            pub x: Float,
            pub y: Float,
            pub z: Float,
        }

        impl Vector3f {
            pub fn new(x: Float, y: Float, z: Float) -> Self {
                Vector3f { x, y, z }
            }

            pub fn of(v: [Float; 3]) -> Self {
                Vector3f::new(v[0], v[1], v[2])
            }

            fn each(&self, other: &Self, f: impl Fn(Float, Float) -> Float) -> Self {
                Vector3f::new(f(self.x, other.x), f(self.y, other.y), f(self.z, other.z))
            }

            pub fn less(&self, other: &Self) -> Self {
                self.each(other, |a, b| a - b)
            }

            pub fn over(&self, other: &Self) -> Self {
                self.each(other, |a, b| a / b)
            }
        }

        impl std::ops::Index<usize> for Vector3f {
            type Output = Float;

            fn index(&self, axis: usize) -> &Float {
                match axis {
                    0 => &self.x,
                    1 => &self.y,
                    _ => &self.z,
                }
            }
        }
    }

    pub mod geometry {
        use super::base::Vector3f;

        pub mod ray {
            use crate::util::base::{Float, Vector3f};

            #[derive(Clone, Debug)]
            pub struct Ray {
                pub o: Vector3f,
                pub d: Vector3f,
                pub time: Float,
            }

            impl Ray {
                pub fn new(o: &Vector3f, d: &Vector3f, _t_max: Float, time: Float) -> Self {
                    Ray { o: *o, d: *d, time }
                }

                /// Each step rounded.
                pub fn position(&self, t: Float) -> Vector3f {
                    Vector3f::new(
                        self.o.x + t * self.d.x,
                        self.o.y + t * self.d.y,
                        self.o.z + t * self.d.z,
                    )
                }
            }
        }

        #[derive(Clone, Debug)]
        pub struct Bounds3f {
            pub min: Vector3f,
            pub max: Vector3f,
        }

        impl Bounds3f {
            pub fn diagonal(&self) -> Vector3f {
                self.max.less(&self.min)
            }

            pub fn offset(&self, p: &Vector3f) -> Vector3f {
                p.less(&self.min).over(&self.diagonal())
            }
        }
    }

    pub mod spectrum {
        /// The factor of the spectrum: 1, which leaves a figure as it is.
        #[derive(Clone, Copy, Debug)]
        pub struct SampledSpectrum(pub f32);

        impl std::ops::Mul<f32> for SampledSpectrum {
            type Output = SampledSpectrum;

            fn mul(self, by: f32) -> SampledSpectrum {
                SampledSpectrum(self.0 * by)
            }
        }
    }
}

pub mod media {
    #![allow(dead_code)]
    include!(concat!(env!("SMOKE_SOURCE"), "/src/media/majorant_iterator.rs"));

    /// The fields of an iterator, in the order of the state of smokegrid.h; `voxel_limit` follows from them.
    pub fn state(i: &DDAMajorantIterator) -> ([f32; 8], [i32; 9]) {
        let (c, d, s, v, n) = (i.next_crossing_t, i.delta_t, i.step, i.voxel, i.grid.res);
        (
            [i.t_min, i.t_max, c[0], c[1], c[2], d[0], d[1], d[2]],
            [s[0], s[1], s[2], v[0], v[1], v[2], n[0], n[1], n[2]],
        )
    }

    /// An iterator in a state that no `new` need have given.
    pub fn made_up(times: [f32; 8], cells: [i32; 9], grid: MajorantGrid) -> DDAMajorantIterator {
        let limit = |axis: usize| if cells[axis] == 1 { cells[6 + axis] } else { -1 };
        DDAMajorantIterator {
            t_min: times[0],
            t_max: times[1],
            sigma_t: SampledSpectrum(1.0),
            grid,
            next_crossing_t: [times[2], times[3], times[4]],
            delta_t: [times[5], times[6], times[7]],
            step: [cells[0], cells[1], cells[2]],
            voxel_limit: [limit(0), limit(1), limit(2)],
            voxel: [cells[3], cells[4], cells[5]],
        }
    }
}
