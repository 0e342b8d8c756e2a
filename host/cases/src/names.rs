//! Names: prefixes of each other, those that differ in one byte or fill a cell, markers and near ones.
use crate::blocks::Name;
use crate::random::Random;

const UTF8: [&[u8]; 30] = [
    b"M", b"M1", b"M10", b"M1 ", b"M2", b"m1", b"1M", b"\x01", b"\x7f", b"a", b"net_M1", b"net_M10", b"poly", b"VIA1",
    b"VIA12", b"n", b"nnnnnnnnnnnnnnnnnnnnnnnnnnnnnnn", b"nnnnnnnnnnnnnnnnnnnnnnnnnnnnnnnn",
    b"nnnnnnnnnnnnnnnnnnnnnnnnnnnnnnnm", b"mnnnnnnnnnnnnnnnnnnnnnnnnnnnnnnn", b"seed_a", b"BLOCK_1", b"x_prop",
    b"marker", b"nnnnnnnnnnnnnnnnnnnnnnnnnndrawin", "é".as_bytes(), "éM".as_bytes(), "層1".as_bytes(),
    "層".as_bytes(), "M1\u{10ffff}".as_bytes(),
];

const NOT_UTF8: [&[u8]; 6] = [b"\xff", b"M1\xff", b"\x80M1", b"M\xc3", b"\xe5\xb1", &[0xff; 32]];

/// A name of the pool.
pub fn draw(r: &mut Random, utf8: bool) -> Name {
    if !utf8 && r.one_in(3) {
        return r.pick(&NOT_UTF8).to_vec();
    }
    r.pick(&UTF8).to_vec()
}

/// The name of a row of a long block, which has a letter of its own; a third fill their cell.
pub fn of_row(letter: char, place: usize) -> Name {
    let mut name = format!("{letter}{place}").into_bytes();
    if place % 3 == 0 {
        name.resize(32, b'_');
    }
    name
}

/// A name that is asked for, almost this one.
pub fn near(r: &mut Random, name: &[u8]) -> Name {
    let mut near = name.to_vec();
    match r.below(9) {
        0 => near.truncate(name.len().saturating_sub(1)),
        1 => near.push(r.pick(b"1n_ \x01")),
        2 => near.push(0),
        // The padded cell, and past it.
        3 => near.resize(32, 0),
        4 => near.resize(r.pick(&[33, 34, 64, 300]), r.pick(&[0, b'n'])),
        5 => near.insert(0, r.pick(b"nM_")),
        6 => near.make_ascii_uppercase(),
        7 if !near.is_empty() => near[r.below(name.len())] = 0,
        _ => change(r, &mut near),
    }
    near
}

/// Changes one byte.
pub fn change(r: &mut Random, bytes: &mut [u8]) {
    if !bytes.is_empty() {
        let place = r.below(bytes.len());
        bytes[place] = other(r, bytes[place]);
    }
}

/// Another byte: one bit changed, or an end of the bytes' range.
pub fn other(r: &mut Random, byte: u8) -> u8 {
    match r.below(4) {
        0 => 0,
        1 => r.pick(&[1, 0x7f, 0x80, 0xff]),
        2 => r.word() as u8,
        _ => byte ^ 1 << r.below(8),
    }
}

const MARKS: [&[u8]; 5] = [b"seed_", b"BLOCK_", b"_prop", b"marker", b"drawing"];
const BETWEEN: [&[u8]; 10] = [b"", b"", b"_", b"m", b"s", b"d", b"x", b"mar", b"_pr", "é".as_bytes()];

/// Marks, whole, in part or with a byte changed, one after the other.
pub fn marked(r: &mut Random, utf8: bool) -> Name {
    let mut name = r.pick(&BETWEEN).to_vec();
    if r.one_in(2) {
        name.clear();
    }
    let marks = if r.one_in(30) { 60 } else { 4 };
    for _ in 0..r.below(marks) {
        let mut mark = r.pick(&MARKS).to_vec();
        match r.below(4) {
            0 => change(r, &mut mark),
            1 => mark.truncate(r.below(mark.len() + 1)),
            _ => {}
        }
        name.extend(mark);
        name.extend(r.pick(&BETWEEN));
    }
    if !utf8 && r.one_in(2) {
        name.insert(r.below(name.len() + 1), 0xff);
    }
    name
}
