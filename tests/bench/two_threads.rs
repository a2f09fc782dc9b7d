//! Stands in for rayon with two threads: one takes the lower half of a range, the other the upper.
pub mod prelude {
    use std::ops::Range;

    pub trait IntoParallelIterator {
        fn into_par_iter(self) -> Halves;
    }

    impl IntoParallelIterator for Range<usize> {
        fn into_par_iter(self) -> Halves {
            Halves(self)
        }
    }

    pub struct Halves(Range<usize>);

    impl Halves {
        pub fn map<T, F: Fn(usize) -> T + Sync>(self, step: F) -> Mapped<F> {
            Mapped { range: self.0, step }
        }
    }

    pub struct Mapped<F> {
        range: Range<usize>,
        step: F,
    }

    impl<F> Mapped<F> {
        pub fn collect<T: Send, C: FromIterator<T>>(self) -> C
        where
            F: Fn(usize) -> T + Sync,
        {
            let middle = self.range.start + self.range.len() / 2;
            let run = |range: Range<usize>| range.map(&self.step).collect::<Vec<T>>();
            let (low, high) = std::thread::scope(|scope| {
                let high = scope.spawn(|| run(middle..self.range.end));
                (run(self.range.start..middle), high.join().unwrap())
            });
            low.into_iter().chain(high).collect()
        }
    }
}
