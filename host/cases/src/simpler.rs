//! The smallest input found on which the two sides still differ: what can be left out of an input, and which of its numbers can be plainer.
mod blocks;
mod cases;
mod layouts;
mod lists;
mod meshes;
mod models;
mod polygons;
mod stacks;
mod welds;

use std::time::Instant;

pub type Tries<'a, T> = Box<dyn Iterator<Item = T> + 'a>;

pub trait Simpler: Clone {
    /// Inputs with one change: those that leave out the most come first. Each is shorter than this one, or has a plainer number.
    fn simpler(&self) -> Tries<'_, Self>;
}

/// The last of a row of inputs, each simpler than the one before it, for all of which the test is true; none is looked for past this moment.
pub fn smallest<T: Simpler>(first: T, until: Instant, test: impl Fn(&T) -> bool) -> T {
    let mut least = first;
    loop {
        let next = least.simpler().take_while(|_| Instant::now() < until).find(|job| test(job));
        match next {
            Some(next) => least = next,
            None => return least,
        }
    }
}
