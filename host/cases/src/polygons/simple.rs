//! Simple polygons of random shape, within some units of the origin.
use super::shapes;
use crate::random::Random;
use crate::rings::Ring;

pub fn draw(r: &mut Random, n: usize) -> Ring {
    match r.below(6) {
        _ if n < 3 => shapes::circle(n),
        0 => shapes::around(n, |_| 0.02 + r.unit()),
        1 => monotone(r, n, |r| r.unit()),
        2 => monotone(r, n, |r| r.between(0, 3) as f64),
        3 => steps(r, n),
        4 => uncrossed(r, n.min(14)),
        _ => grown(r, n.min(40)),
    }
}

/// Two chains from left to right, one above the other; they may touch where heights are whole.
fn monotone(r: &mut Random, n: usize, mut height: impl FnMut(&mut Random) -> f64) -> Ring {
    let mut x = 0.0;
    let mut line: Ring = (0..n)
        .map(|_| {
            x += if r.one_in(4) { 1.0 } else { 0.01 + r.unit() };
            (x, height(r))
        })
        .collect();
    let above = r.between(1, n as i64 - 2);
    let mut upper = vec![];
    for _ in 0..above {
        let place = r.between(1, line.len() as i64 - 2) as usize;
        let (x, y) = line.remove(place);
        upper.push((x, y + 1.0));
    }
    let inner = 1..line.len() - 1;
    line[inner].iter_mut().for_each(|point| point.1 = -point.1);
    upper.sort_by(|a, b| b.0.total_cmp(&a.0));
    line.extend(upper);
    line
}

/// Columns of small whole heights over a straight back.
fn steps(r: &mut Random, n: usize) -> Ring {
    let columns = (n.saturating_sub(2) / 2).max(1);
    let mut ring: Ring = (0..columns)
        .flat_map(|i| {
            let y = r.between(1, 4) as f64;
            [(i as f64, y), (i as f64 + 1.0, y)]
        })
        .collect();
    ring.extend([(columns as f64, 0.0), (0.0, 0.0)]);
    ring
}

/// Random points, some on a lattice, in an order in which no two edges cross: while two do, what lies between them is turned round.
fn uncrossed(r: &mut Random, n: usize) -> Ring {
    let whole = r.one_in(2);
    let mut number = || if whole { r.between(-4, 4) as f64 } else { r.unit() * 8.0 - 4.0 };
    let mut ring: Ring = (0..n).map(|_| (number(), number())).collect();
    // Each turn makes the ring shorter, but for the rounding and for edges on one line.
    for _ in 0..1000 {
        let pairs = (0..n).flat_map(|i| (i + 2..n).map(move |j| (i, j)));
        let Some((i, j)) = pairs.filter(|(i, j)| (j + 1) % n != *i).find(|&(i, j)| cross(ring[i], ring[i + 1], ring[j], ring[(j + 1) % n])) else {
            break;
        };
        ring[i + 1..=j].reverse();
    }
    ring
}

/// From a triangle on, an edge gets a point beside its middle, where no other edge is crossed.
fn grown(r: &mut Random, n: usize) -> Ring {
    let mut ring: Ring = vec![(-1.0, -1.0), (1.0, -1.0), (0.0, 1.0)];
    for _ in 0..4 * n {
        if ring.len() >= n {
            break;
        }
        let m = ring.len();
        let i = r.below(m);
        let (a, b) = (ring[i], ring[(i + 1) % m]);
        let (u, v) = (r.unit(), (r.unit() - 0.5) * 2.0);
        let p = (a.0 + (b.0 - a.0) * u - (b.1 - a.1) * v, a.1 + (b.1 - a.1) * u + (b.0 - a.0) * v);
        let hits = |from, to| (0..m).filter(|j| *j != i).any(|j| cross(from, to, ring[j], ring[(j + 1) % m]));
        if !hits(a, p) && !hits(p, b) {
            ring.insert(i + 1, p);
        }
    }
    ring
}

/// Whether the edges from a to b and from c to d cross inside both.
fn cross(a: (f64, f64), b: (f64, f64), c: (f64, f64), d: (f64, f64)) -> bool {
    let side = |p: (f64, f64), q: (f64, f64), s: (f64, f64)| (q.0 - p.0) * (s.1 - p.1) - (q.1 - p.1) * (s.0 - p.0);
    side(a, b, c) * side(a, b, d) < 0.0 && side(c, d, a) * side(c, d, b) < 0.0
}
