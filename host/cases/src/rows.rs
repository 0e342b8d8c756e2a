//! Random rows of each kind of block.
use crate::blocks::{Kind, Layer, Name, Rows, Via};
use crate::names;
use crate::numbers;
use crate::random::Random;

/// So many rows; keys that must not repeat do not.
pub fn draw(r: &mut Random, kind: Kind, count: usize, utf8: bool) -> Rows {
    match kind {
        Kind::LayerNames => {
            let numbers = layers(r, count);
            Rows::LayerNames(numbers.into_iter().map(|number| (number, names::draw(r, utf8))).collect())
        }
        Kind::Map => {
            let keys = distinct(r, count, utf8);
            Rows::Map(keys.into_iter().map(|key| (key, names::draw(r, utf8))).collect())
        }
        Kind::Stack => {
            let names = with_repeats(r, count, utf8);
            Rows::Stack(names.into_iter().map(|name| layer(r, name)).collect())
        }
        Kind::Vias => {
            let names = with_repeats(r, count, utf8);
            Rows::Vias(names.into_iter().map(|name| via(r, name, utf8)).collect())
        }
    }
}

/// More rows than the pool has names.
const LONG: usize = 16;
const LETTERS: [char; 4] = ['n', 'o', 'p', 'q'];

fn with_repeats(r: &mut Random, count: usize, utf8: bool) -> Vec<Name> {
    let letter = r.pick(&LETTERS);
    let name = |place| if count > LONG && !r.one_in(8) { names::of_row(letter, place) } else { names::draw(r, utf8) };
    (0..count).map(name).collect()
}

fn distinct(r: &mut Random, count: usize, utf8: bool) -> Vec<Name> {
    let mut keys: Vec<Name> = vec![];
    if count > LONG {
        let letter = r.pick(&LETTERS);
        keys = (0..count).map(|place| names::of_row(letter, place)).collect();
        r.shuffle(&mut keys);
    }
    while keys.len() < count {
        let key = names::draw(r, utf8);
        if !keys.contains(&key) {
            keys.push(key);
        }
    }
    keys
}

const LAYERS: [i16; 12] = [0, 1, 2, 255, 256, 257, -1, -2, -256, 32767, -32767, -32768];

pub fn layers(r: &mut Random, count: usize) -> Vec<i16> {
    let mut numbers = LAYERS.to_vec();
    numbers.extend(if count > LONG { 1000..1300 } else { 3..6 });
    r.shuffle(&mut numbers);
    numbers.truncate(count);
    numbers
}

/// A layer number that is asked for: one that there is, one beside it, its bytes swapped, any.
pub fn layer_asked(r: &mut Random, rows: &Rows) -> i16 {
    let Rows::LayerNames(rows) = rows else { return 0 };
    let number = if rows.is_empty() || r.one_in(6) { r.pick(&LAYERS) } else { rows[r.below(rows.len())].0 };
    match r.below(8) {
        0 => number.wrapping_add(r.pick(&[1, -1, 256])),
        1 => number.swap_bytes(),
        2 => r.word() as i16,
        _ => number,
    }
}

fn layer(r: &mut Random, name: Name) -> Layer {
    let height = (!r.one_in(4)).then(|| numbers::figure(r));
    let thickness = (!r.one_in(4)).then(|| numbers::figure(r));
    Layer { name, height, thickness }
}

fn via(r: &mut Random, name: Name, utf8: bool) -> Via {
    let bottom = (!r.one_in(4)).then(|| names::draw(r, utf8));
    let top = (!r.one_in(4)).then(|| names::draw(r, utf8));
    Via { name, bottom, top }
}

/// A present figure that is not finite or too large, if there is a row.
pub fn spoil_figure(r: &mut Random, rows: &mut Rows) {
    if let Rows::Stack(rows) = rows {
        if rows.is_empty() {
            return;
        }
        let row = r.below(rows.len());
        let figure = Some(numbers::outside_figure(r));
        if r.one_in(2) {
            rows[row].height = figure;
        } else {
            rows[row].thickness = figure;
        }
    }
}
