//! Damaged copies of a block.
use crate::blocks::Kind;
use crate::names;
use crate::random::Random;

/// The same bytes with one thing changed; some changes leave a sound block.
pub fn damaged(r: &mut Random, kind: Kind, bytes: &[u8]) -> Vec<u8> {
    let mut bytes = bytes.to_vec();
    let rows = (bytes.len() - 2) / (kind.length(1) - 2);
    match r.below(9) {
        0 => names::change(r, &mut bytes),
        1 => bytes.truncate(shorter(r, kind, bytes.len())),
        2 => {
            let more = r.pick(&[1, 1, 2, 8, kind.length(1) - 2]);
            let with = r.pick(&[0, b'n']);
            bytes.resize(bytes.len() + more, with);
        }
        3 => set_count(r, &mut bytes, rows),
        // A row less, or one of zeros more, with its count: every value moves.
        4 => {
            let rows = if rows > 0 && r.one_in(2) { rows - 1 } else { rows + 1 };
            bytes.resize(kind.length(rows), 0);
            bytes[..2].copy_from_slice(&(rows as u16).to_le_bytes());
        }
        _ if rows == 0 => set_count(r, &mut bytes, rows),
        5 if rows > 1 => repeat_key(r, kind, rows, &mut bytes),
        6 | 7 if kind == Kind::Stack => spoil_entry(r, rows, &mut bytes),
        _ => spoil_name(r, kind, rows, &mut bytes),
    }
    bytes
}

fn shorter(r: &mut Random, kind: Kind, length: usize) -> usize {
    let row = kind.length(1) - 2;
    match r.below(4) {
        0 => length - 1,
        1 => length.saturating_sub(row),
        2 => r.below(3).min(length - 1),
        _ => r.below(length),
    }
}

/// The count alone; the length stays.
fn set_count(r: &mut Random, bytes: &mut [u8], rows: usize) {
    let count = match r.below(4) {
        0 => rows as u16 + 1,
        1 => (rows as u16).wrapping_sub(1),
        2 => (rows as u16).swap_bytes(),
        _ => r.pick(&[0, 1, 255, 256, 257, 258, 1024, 32768, 65535]),
    };
    bytes[..2].copy_from_slice(&count.to_le_bytes());
}

/// Gives a row the key of another.
fn repeat_key(r: &mut Random, kind: Kind, rows: usize, bytes: &mut [u8]) {
    let key = kind.widths().0;
    let (from, to) = (r.below(rows), r.below(rows - 1));
    let to = if to < from { to } else { to + 1 };
    bytes.copy_within(2 + from * key..2 + from * key + key, 2 + to * key);
}

/// The flag byte, or a byte of an absent figure.
fn spoil_entry(r: &mut Random, rows: usize, bytes: &mut [u8]) {
    let at = 2 + rows * 32 + r.below(rows) * 17;
    let figure = r.below(2);
    match r.below(4) {
        0 => bytes[at] |= 4 << r.below(6),
        1 => bytes[at] ^= 1 << r.below(2),
        // Absent, but for one byte.
        2 => {
            let figure_at = at + 1 + 8 * figure;
            bytes[at] &= !(1 << figure);
            bytes[figure_at..figure_at + 8].fill(0);
            bytes[figure_at + r.below(8)] = r.pick(&[1, 0x80, 0xff, 0x3f]);
        }
        _ => bytes[at] = r.word() as u8,
    }
}

/// A name cell with a zero in it, a byte behind its zeros, or nothing but zeros.
fn spoil_name(r: &mut Random, kind: Kind, rows: usize, bytes: &mut [u8]) {
    let (key, value) = kind.widths();
    let keys = if key == 32 { rows } else { 0 };
    let values = if value == 17 { 0 } else { rows * value / 32 };
    let cell = r.below(keys + values);
    let at = if cell < keys { 2 + cell * 32 } else { 2 + rows * key + (cell - keys) * 32 };
    let cell = &mut bytes[at..at + 32];
    let length = cell.iter().position(|byte| *byte == 0).unwrap_or(32);
    match r.below(4) {
        0 if length > 1 => cell[r.below(length - 1)] = 0,
        1 if length > 0 => cell[0] = 0,
        2 => cell.fill(0),
        // At length + 1 or later; the end otherwise.
        _ => cell[(length + 1 + r.below(31)).min(31)] = r.pick(&[1, b'n', 0xff]),
    }
}
