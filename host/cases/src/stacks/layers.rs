//! The six blocks of a layout: names of few pools, so that most are found somewhere.
use crate::blocks::{Layer, Name, Rows, Via};
use crate::names;
use crate::numbers;
use crate::random::Random;
use crate::rows;

/// Logical names, and physical ones.
struct Pools {
    logical: Vec<Name>,
    physical: Vec<Name>,
}

/// The rows of the six blocks, in their order.
pub fn draw(r: &mut Random, long: bool) -> Vec<Rows> {
    let utf8 = !r.one_in(5);
    let pools = pools(r, long, utf8);
    // Few vias, so that most names that are none's take the other rule.
    let most = [9, 9, 9, 12, 9, 5];
    let counts: [usize; 6] = std::array::from_fn(|i| if long { 256 } else { r.below(most[i]) });
    vec![
        Rows::LayerNames(rows::layers(r, counts[0]).into_iter().map(|number| (number, pick(r, &pools.logical))).collect()),
        Rows::Map(map(r, counts[1], &pools)),
        Rows::Map(map(r, counts[2], &pools)),
        Rows::Stack((0..counts[3]).map(|_| layer(r, &pools)).collect()),
        Rows::Stack((0..counts[4]).map(|_| layer(r, &pools)).collect()),
        Rows::Vias((0..counts[5]).map(|_| via(r, &pools)).collect()),
    ]
}

fn pools(r: &mut Random, long: bool, utf8: bool) -> Pools {
    let mut logical: Vec<Name> = (0..r.between(3, 6)).map(|_| names::draw(r, utf8)).collect();
    let marks = r.below(4);
    logical.extend((0..marks).map(|_| marked(r, utf8)));
    let mut physical: Vec<Name> = (0..r.between(2, 7)).map(|_| names::draw(r, utf8)).collect();
    if long {
        logical.extend((0..300).map(|place| names::of_row('n', place)));
        physical.extend((0..200).map(|place| names::of_row('o', place)));
    }
    Pools { logical, physical }
}

/// A name with marks in it, or almost, that fits in a cell.
fn marked(r: &mut Random, utf8: bool) -> Name {
    loop {
        let name = names::marked(r, utf8);
        let sound = (1..=32).contains(&name.len()) && !name.contains(&0);
        if sound && (!utf8 || std::str::from_utf8(&name).is_ok()) {
            return name;
        }
    }
}

fn pick(r: &mut Random, pool: &[Name]) -> Name {
    pool[r.below(pool.len())].clone()
}

/// Keys of the pool, as many as there are up to this count; none repeats.
fn map(r: &mut Random, count: usize, pools: &Pools) -> Vec<(Name, Name)> {
    let mut keys = pools.logical.clone();
    keys.sort();
    keys.dedup();
    r.shuffle(&mut keys);
    keys.truncate(count);
    keys.into_iter().map(|key| (key, pick(r, &pools.physical))).collect()
}

fn layer(r: &mut Random, pools: &Pools) -> Layer {
    let name = pick(r, &pools.physical);
    let height = (!r.one_in(8)).then(|| height(r));
    let thickness = (!r.one_in(8)).then(|| thickness(r));
    Layer { name, height, thickness }
}

fn height(r: &mut Random) -> f64 {
    match r.below(4) {
        0 => numbers::figure(r),
        1 => r.between(-2, 4) as f64,
        2 => r.below(8) as f64 * 1e-7,
        _ => r.unit() * 1e-6,
    }
}

/// Above zero mostly; some are lost in the sum with a height.
fn thickness(r: &mut Random) -> f64 {
    match r.below(8) {
        0 => numbers::figure(r),
        1 => r.pick(&[0.0, -0.0, 5e-324, 1e-30]),
        2 | 3 => r.between(1, 3) as f64,
        4 => 1e-7,
        _ => r.unit() * 1e-6,
    }
}

fn via(r: &mut Random, pools: &Pools) -> Via {
    let name = pick(r, &pools.physical);
    let bottom = (!r.one_in(8)).then(|| pick(r, &pools.physical));
    let top = (!r.one_in(8)).then(|| pick(r, &pools.physical));
    Via { name, bottom, top }
}
