//! What is measured: rings in the form of each side, and numbers to take the root of.
use oracle::core::geometry::Point;

pub struct Ring {
    pub points: Vec<Point>,
    pub xs: Vec<f64>,
    pub ys: Vec<f64>,
}

fn ring(points: Vec<Point>) -> Ring {
    let (xs, ys) = points.iter().map(|p| (p.x, p.y)).unzip();
    Ring { points, xs, ys }
}

/// The ring of these points.
pub fn of(points: Vec<(f64, f64)>) -> Ring {
    ring(points.into_iter().map(|(x, y)| Point::new(x, y)).collect())
}

/// A radius in metres.
pub fn circle(n: usize, radius: f64) -> Ring {
    let angle = |i| i as f64 * std::f64::consts::TAU / n as f64;
    ring((0..n).map(|i| Point::new(radius * angle(i).cos(), radius * angle(i).sin())).collect())
}

pub fn on_four_corners(n: usize) -> Ring {
    let corners = [(0.0, 0.0), (3.0, 0.0), (3.0, 2.0), (0.0, 2.0)];
    ring((0..n).map(|i| Point::new(corners[i % 4].0, corners[i % 4].1)).collect())
}

/// Positive normal numbers of random digits and sizes.
pub fn values(n: usize) -> Vec<f64> {
    let mut state = 0x9e3779b97f4a7c15u64;
    let mut word = || {
        state ^= state << 13;
        state ^= state >> 7;
        state ^= state << 17;
        state
    };
    (0..n).map(|_| f64::from_bits((1 + word() % 2046) << 52 | word() >> 12)).collect()
}
