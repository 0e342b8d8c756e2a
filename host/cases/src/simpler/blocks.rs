//! Blocks and names: fewer rows, fewer bytes, plainer bytes; and a name that is one letter wherever it stands.
use super::lists::{all, cut, leave_out, with};
use super::Tries;
use crate::blocks::{Kind, Lent, Rows};
use std::collections::BTreeSet;
use std::ops::Range;

/// What is lent to a call: blocks of these kinds, then perhaps a name.
pub fn all_simpler<'a>(lent: &'a [Lent], kinds: &'a [Kind]) -> Tries<'a, Vec<Lent>> {
    let each = lent.iter().enumerate().flat_map(move |(place, one)| {
        simpler(one, kinds.get(place).copied()).map(move |simpler| with(&lent.to_vec(), |copy| copy[place] = simpler))
    });
    let names: BTreeSet<[u8; CELL]> = lent.iter().zip(kinds).flat_map(|(one, kind)| cells(one, *kind).map(|at| cell(one, at))).collect();
    let long = (b'a'..=b'z').zip(names.into_iter().filter(|name| name[1] != 0));
    Box::new(long.map(move |(letter, name)| renamed(lent, kinds, name, letter)).chain(each))
}

/// The bytes of a name cell.
const CELL: usize = 32;

/// Where name cells stand in a block.
fn cells(lent: &Lent, kind: Kind) -> impl Iterator<Item = usize> {
    let (key, value) = kind.widths();
    let rows = lent.bytes.len().saturating_sub(2) / (key + value);
    let keys = if key == CELL { rows } else { 0 };
    let values = if value % CELL == 0 { rows * value / CELL } else { 0 };
    (0..keys).map(|i| 2 + i * CELL).chain((0..values).map(move |i| 2 + rows * key + i * CELL))
}

fn cell(lent: &Lent, at: usize) -> [u8; CELL] {
    lent.bytes[at..at + CELL].try_into().unwrap()
}

/// The same with this letter for a name.
fn renamed(lent: &[Lent], kinds: &[Kind], name: [u8; CELL], letter: u8) -> Vec<Lent> {
    let mut copy = lent.to_vec();
    for (one, kind) in copy.iter_mut().zip(kinds) {
        let named: Vec<usize> = cells(one, *kind).filter(|at| cell(one, *at) == name).collect();
        for at in named {
            one.bytes[at..at + CELL].fill(0);
            one.bytes[at] = letter;
            one.rows = None;
        }
    }
    let length = name.iter().position(|byte| *byte == 0).unwrap_or(CELL);
    for one in copy[kinds.len()..].iter_mut().filter(|one| *one.bytes == name[..length]) {
        *one = Lent::name(vec![letter]);
    }
    copy
}

/// A block of this kind, or a name.
fn simpler(lent: &Lent, kind: Option<Kind>) -> Tries<'_, Lent> {
    let rows = lent.rows.as_ref().map_or(0, Rows::count);
    let by_rows = cut(lent, rows, |copy, part| *copy = Lent::block(without(lent.rows.clone().unwrap(), part)));
    let in_bytes = counted(lent, kind);
    let by_bytes_of_rows = cut(lent, in_bytes, move |copy, part| *copy = Lent::damaged(without_rows(&lent.bytes, kind.unwrap(), part)));
    let by_bytes = cut(lent, lent.bytes.len(), |copy, part| {
        let mut bytes = lent.bytes.to_vec();
        leave_out(&mut bytes, part);
        *copy = Lent::damaged(bytes);
    });
    all([by_rows, by_bytes_of_rows, by_bytes, plainer(lent)])
}

/// A byte is 0, or else the letter a.
fn plainer(lent: &Lent) -> Tries<'_, Lent> {
    Box::new((0..lent.bytes.len()).flat_map(move |place| {
        let now = lent.bytes[place];
        let plain: &[u8] = if now == 0 { &[] } else if now == b'a' { &[0] } else { &[0, b'a'] };
        plain.iter().map(move |byte| {
            with(lent, |copy| {
                copy.bytes[place] = *byte;
                copy.rows = None;
            })
        })
    }))
}

fn without(mut rows: Rows, part: &Range<usize>) -> Rows {
    match &mut rows {
        Rows::LayerNames(rows) => leave_out(rows, part),
        Rows::Map(rows) => leave_out(rows, part),
        Rows::Stack(rows) => leave_out(rows, part),
        Rows::Vias(rows) => leave_out(rows, part),
    }
    rows
}

/// The rows of a damaged block that has its counted length.
fn counted(lent: &Lent, kind: Option<Kind>) -> usize {
    let (Some(kind), Some(count)) = (kind, lent.bytes.first_chunk().map(|bytes| u16::from_le_bytes(*bytes) as usize)) else { return 0 };
    if lent.rows.is_none() && kind.length(count) == lent.bytes.len() { count } else { 0 }
}

/// The same block without the keys and the values of these rows.
fn without_rows(bytes: &[u8], kind: Kind, part: &Range<usize>) -> Vec<u8> {
    let (key, value) = kind.widths();
    let rows = (bytes.len() - 2) / (key + value);
    let (mut keys, mut values) = (bytes[2..2 + rows * key].to_vec(), bytes[2 + rows * key..].to_vec());
    leave_out(&mut keys, &(part.start * key..part.end * key));
    leave_out(&mut values, &(part.start * value..part.end * value));
    [((rows - part.len()) as u16).to_le_bytes().to_vec(), keys, values].concat()
}
