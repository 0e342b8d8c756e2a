//! Cases of the calls on name blocks: the blocks, the name asked for and the layer number asked for.
use crate::blocks::{Lent, Name, Rows};
use crate::call::Call;
use crate::damage::damaged;
use crate::names;
use crate::random::Random;
use crate::rows;

/// Every fourth case changes one byte of small blocks; so many of these go through the same blocks.
const SWEEP: u64 = 512;

pub fn draw(call: Call, seed: u64, number: u64) -> (Vec<Lent>, i16) {
    let r = &mut Random::of_case(seed, call.number(), number);
    if number % 4 == 0 && !call.blocks().is_empty() {
        let turn = number / 4;
        let same = &mut Random::of_case(seed, call.number(), !(turn / SWEEP));
        let (blocks, name, layer) = small(same, call);
        let mut lent = lend(blocks, name);
        change_at(r, &mut lent, (turn % SWEEP) as usize);
        return (lent, layer);
    }
    let (mut blocks, name, layer) = any(r, call);
    if r.one_in(5) {
        for rows in &mut blocks {
            rows::spoil_figure(r, rows);
        }
    }
    let mut lent = lend(blocks, name);
    if !call.blocks().is_empty() && r.one_in(3) {
        let place = r.below(call.blocks().len());
        lent[place] = Lent::damaged(damaged(r, call.blocks()[place], &lent[place].bytes));
    }
    (lent, layer)
}

/// What is lent, undamaged, and the layer number.
type Asked = (Vec<Rows>, Option<Name>, i16);

/// One row a block where there are six, else up to two: at most 512 bytes.
fn small(r: &mut Random, call: Call) -> Asked {
    let most = if call.blocks().len() > 3 { 1 } else { 2 };
    let utf8 = !r.one_in(3);
    let blocks = call.blocks().iter().map(|kind| {
        let count = r.between(1, most) as usize;
        rows::draw(r, *kind, count, utf8)
    });
    let blocks = blocks.collect();
    with_asked(r, call, blocks, utf8)
}

fn any(r: &mut Random, call: Call) -> Asked {
    let utf8 = !r.one_in(3);
    let mut blocks: Vec<Rows> = vec![];
    let all_long = r.one_in(300);
    for kind in call.blocks() {
        let count = match r.below(60 * call.blocks().len()) {
            _ if all_long => 256,
            0 => r.pick(&[17, 255, 256, 256, 257, 257, 300]),
            _ => r.below(9),
        };
        blocks.push(rows::draw(r, *kind, count, utf8));
    }
    with_asked(r, call, blocks, utf8)
}

fn with_asked(r: &mut Random, call: Call, blocks: Vec<Rows>, utf8: bool) -> Asked {
    let name = call.asks_name().then(|| match call {
        Call::IsMarker => names::marked(r, utf8),
        _ => asked(r, &blocks, utf8),
    });
    let layer = if call == Call::LayerName { rows::layer_asked(r, &blocks[0]) } else { 0 };
    (blocks, name, layer)
}

/// A name of the blocks mostly, or one almost like it.
fn asked(r: &mut Random, blocks: &[Rows], utf8: bool) -> Name {
    let all = blocks[r.below(blocks.len())].names();
    if all.is_empty() || r.one_in(8) {
        return if r.one_in(4) { vec![] } else { names::draw(r, utf8) };
    }
    let name = all[r.below(all.len())];
    if r.one_in(3) { names::near(r, name) } else { name.clone() }
}

/// A block of more than 256 rows is damaged as it is.
fn lend(blocks: Vec<Rows>, name: Option<Name>) -> Vec<Lent> {
    let lend_block = |rows: Rows| if rows.count() > 256 { Lent::damaged(rows.bytes()) } else { Lent::block(rows) };
    blocks.into_iter().map(lend_block).chain(name.map(Lent::name)).collect()
}

/// Changes the byte at this place of all that is lent, counted round.
fn change_at(r: &mut Random, lent: &mut [Lent], place: usize) {
    let mut place = place % lent.iter().map(|one| one.bytes.len()).sum::<usize>();
    for one in lent {
        if place < one.bytes.len() {
            one.bytes[place] = names::other(r, one.bytes[place]);
            one.rows = None;
            return;
        }
        place -= one.bytes.len();
    }
}
