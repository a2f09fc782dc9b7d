//! Stands in for rayon: a range runs in order, so that the lowest cell's fault is the one reported.
pub mod prelude {
    pub trait IntoParallelIterator: Iterator + Sized {
        fn into_par_iter(self) -> Self {
            self
        }
    }

    impl IntoParallelIterator for std::ops::Range<usize> {}
}
