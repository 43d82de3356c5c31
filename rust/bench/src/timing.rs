//! How long two calls take, in turns.

use crate::lent::Lent;
use std::hint::black_box;
use std::time::Instant;

pub const RUNS: usize = 21;

/// Milliseconds of the runs of a call, ascending.
pub struct Times(Vec<f64>);

impl Times {
    pub fn median(&self) -> f64 {
        self.0[self.0.len() / 2]
    }

    /// On a busy machine the fastest run says more than the median.
    pub fn fastest(&self) -> f64 {
        self.0[0]
    }

    fn of(mut milliseconds: Vec<f64>) -> Times {
        milliseconds.sort_by(f64::total_cmp);
        Times(milliseconds)
    }
}

/// The times of the proved call, and those of another.
pub struct Pair {
    pub proved: Times,
    pub other: Times,
}

impl Pair {
    /// Takes them in turns, so that a change in the machine's speed hits both alike.
    pub fn timed<L: Lent, A, B>(
        runs: usize,
        lent: L,
        mut proved: impl FnMut(&mut L) -> A,
        mut other: impl FnMut(&mut L) -> B,
    ) -> Pair {
        let [mut ours, mut theirs] = [lent.clone(), lent];
        let mut times = [Vec::new(), Vec::new()];
        for _ in 0..runs {
            times[0].push(milliseconds(&mut ours, &mut proved));
            times[1].push(milliseconds(&mut theirs, &mut other));
        }
        let [proved, other] = times.map(Times::of);
        Pair { proved, other }
    }

    pub fn ratio(&self) -> f64 {
        self.proved.median() / self.other.median()
    }

    pub fn print(&self, name: &str, other: &str) {
        let (ours, theirs, ratio) = (self.proved.median(), self.other.median(), self.ratio());
        println!("{name:12} proved {ours:8.3} ms, {other:9} {theirs:8.3} ms, ratio {ratio:.2}");
        let (ours, theirs) = (self.proved.fastest(), self.other.fastest());
        println!("{:12} fastest {ours:7.3} ms, {theirs:18.3} ms, ratio {:.2}", "", ours / theirs);
    }
}

/// Times both in as many runs as the headline has, and prints the medians and the fastest.
pub fn report<L: Lent, A, B>(
    name: &str,
    other_name: &str,
    lent: L,
    proved: impl FnMut(&mut L) -> A,
    other: impl FnMut(&mut L) -> B,
) {
    Pair::timed(RUNS, lent, proved, other).print(name, other_name);
}

/// The times of one call alone.
pub fn timed<T>(mut call: impl FnMut() -> T) -> Times {
    Times::of((0..RUNS).map(|_| milliseconds(&mut (), &mut |()| call())).collect())
}

/// Clears what is lent, and only then starts to count.
fn milliseconds<L: Lent, T>(lent: &mut L, call: &mut impl FnMut(&mut L) -> T) -> f64 {
    lent.clear();
    let lent = black_box(lent);
    let started = Instant::now();
    black_box(call(lent));
    started.elapsed().as_secs_f64() * 1e3
}
