//! The rules of name blocks, transcribed: the bytes are read row by row, and a call on them is answered.
use crate::blocks::Kind;
use crate::call::Call::*;
use crate::case::{Answer, Case, BEFORE, COPY};

/// A row's key, its value, and where the value stands in the block.
pub(super) struct Row<'a> {
    pub(super) key: &'a [u8],
    pub(super) value: &'a [u8],
    at: usize,
}

pub fn answer(case: &Case) -> Answer {
    if case.call == CopyPhysicalName {
        return copied(case, physical_name(case).unwrap_or(&[]));
    }
    match values(case) {
        Ok(values) => Answer::accepted(&values),
        Err(refusal) => Answer::refused(refusal),
    }
}

/// The accepted call's values, or its refusal.
fn values(case: &Case) -> Result<Vec<u64>, u32> {
    if case.call == IsMarker {
        return Ok(vec![is_marker(case.name()) as u64]);
    }
    // "14 in the order" of the blocks: the number is the same for each.
    let mut blocks = vec![];
    for (place, kind) in case.call.blocks().iter().enumerate() {
        blocks.push(rows(*kind, case.block(place)).ok_or(14u32)?);
    }
    match case.call {
        CheckBlocks => {
            figures(&blocks[3])?;
            figures(&blocks[4])?;
            Ok(vec![])
        }
        LookUp => Ok(vec![blocks.iter().any(|block| found(block, case.name()).is_some()) as u64]),
        PhysicalName => {
            for (place, block) in blocks.iter().enumerate() {
                if let Some(row) = found(block, case.name()) {
                    return Ok(vec![place as u64 + 1, row.at as u64, name(row.value).len() as u64]);
                }
            }
            Ok(vec![0, 0, 0])
        }
        LayerName => {
            let row = blocks[0].iter().find(|row| row.key == case.layer().to_le_bytes());
            Ok(row.map_or(vec![0, 0], |row| vec![row.at as u64, name(row.value).len() as u64]))
        }
        StackLayer => {
            figures(&blocks[0])?;
            let row = found(&blocks[0], case.name());
            Ok(row.map_or(vec![0; 5], |row| {
                let [height, thickness] = figures_of(row.value);
                vec![1, height.is_some() as u64, bits(height), thickness.is_some() as u64, bits(thickness)]
            }))
        }
        ViaLayers => {
            let row = found(&blocks[0], case.name());
            Ok(row.map_or(vec![0; 5], |row| {
                let [bottom, top] = [0, 32].map(|end| part(row.at + end, name(&row.value[end..end + 32])));
                vec![1, bottom.0, bottom.1, top.0, top.1]
            }))
        }
        MaterialNumber => {
            let place = blocks.iter().flatten().position(|row| name(row.key) == case.name());
            Ok(vec![place.map_or(0, |place| place as u64 + 1)])
        }
        _ => unreachable!("{} is no call on blocks", case.call.name()),
    }
}

/// The physical name; none of damaged blocks, too.
fn physical_name(case: &Case) -> Option<&[u8]> {
    let blocks = [rows(Kind::Map, case.block(0))?, rows(Kind::Map, case.block(1))?];
    blocks.iter().find_map(|block| found(block, case.name())).map(|row| name(row.value))
}

/// The first bytes of the name, as many as there is room for.
fn copied(case: &Case, name: &[u8]) -> Answer {
    let mut copy = [BEFORE; COPY];
    let kept = name.len().min(case.room());
    copy[..kept].copy_from_slice(&name[..kept]);
    Answer::copied(name.len(), &copy)
}

/// 0 where the six blocks are accepted, 1 where a conductor's figure is refused, else 2; none of damaged blocks.
pub fn checked(status: u32, conductors: &[u8]) -> Option<usize> {
    let rows = rows(Kind::Stack, conductors)?;
    match status {
        0 => Some(0),
        1 => Some(if figures(&rows).is_err() { 1 } else { 2 }),
        _ => None,
    }
}

/// 0 for none, 1 a conductor's number, 2 a diffusion's, 3 a via's.
pub fn material_kind(number: u64, conductors: &[u8], diffusions: &[u8]) -> usize {
    let count = |block: &[u8]| block[0] as u64 + 256 * block[1] as u64;
    match number {
        0 => 0,
        n if n <= count(conductors) => 1,
        n if n <= count(conductors) + count(diffusions) => 2,
        _ => 3,
    }
}

/// "A block has exactly its counted length", and its cells are sound; none if it is damaged.
pub(super) fn rows(kind: Kind, block: &[u8]) -> Option<Vec<Row<'_>>> {
    let (key, value) = match kind {
        Kind::LayerNames => (2, 32),
        Kind::Map => (32, 32),
        Kind::Stack => (32, 17),
        Kind::Vias => (32, 64),
    };
    if block.len() < 2 {
        return None;
    }
    let count = block[0] as usize + 256 * block[1] as usize;
    if count > 256 || block.len() != 2 + count * key + count * value {
        return None;
    }
    let (keys, values) = block[2..].split_at(count * key);
    let at = |place| 2 + count * key + place * value;
    let cells = keys.chunks(key).zip(values.chunks(value)).enumerate();
    let rows: Vec<Row> = cells.map(|(place, (key, value))| Row { key, value, at: at(place) }).collect();
    let sound = match kind {
        Kind::LayerNames => rows.iter().all(|row| is_name(row.value)) && !repeats(&rows),
        Kind::Map => rows.iter().all(|row| is_name(row.key) && is_name(row.value)) && !repeats(&rows),
        Kind::Stack => rows.iter().all(|row| is_name(row.key) && is_entry(row.value)),
        Kind::Vias => rows.iter().all(|row| is_name(row.key) && row.value.chunks(32).all(|c| is_name(c) || is_zero(c))),
    };
    sound.then_some(rows)
}

/// "1 to 32 nonzero bytes, then zeros"
fn is_name(cell: &[u8]) -> bool {
    !name(cell).is_empty() && is_zero(&cell[name(cell).len()..])
}

/// The cell without its padding.
pub(super) fn name(cell: &[u8]) -> &[u8] {
    cell.split(|byte| *byte == 0).next().unwrap_or(&[])
}

fn is_zero(bytes: &[u8]) -> bool {
    bytes.iter().all(|byte| *byte == 0)
}

/// A flag of two bits; "eight zero bytes if absent".
fn is_entry(entry: &[u8]) -> bool {
    let flag = entry[0];
    flag < 4 && (flag & 1 != 0 || is_zero(&entry[1..9])) && (flag & 2 != 0 || is_zero(&entry[9..17]))
}

fn repeats(rows: &[Row]) -> bool {
    let mut keys: Vec<&[u8]> = rows.iter().map(|row| row.key).collect();
    keys.sort();
    keys.windows(2).any(|two| two[0] == two[1])
}

/// "of equal stack names the first is found"
pub(super) fn found<'a, 'b>(rows: &'b [Row<'a>], asked: &[u8]) -> Option<&'b Row<'a>> {
    rows.iter().find(|row| name(row.key) == asked)
}

/// Height and thickness, where present.
pub(super) fn figures_of(entry: &[u8]) -> [Option<f64>; 2] {
    let figure = |at: usize| f64::from_le_bytes(entry[at..at + 8].try_into().unwrap());
    [(entry[0] & 1 != 0).then(|| figure(1)), (entry[0] & 2 != 0).then(|| figure(9))]
}

/// "finite, at most 2^19 in size"
pub(super) fn figures(rows: &[Row]) -> Result<(), u32> {
    let admitted = |figure: f64| figure.is_finite() && figure.abs() <= 524_288.0;
    let mut all = rows.iter().flat_map(|row| figures_of(row.value)).flatten();
    if all.all(admitted) { Ok(()) } else { Err(1) }
}

fn bits(figure: Option<f64>) -> u64 {
    figure.unwrap_or(0.0).to_bits()
}

/// Start and length, both 0 where there is no name.
fn part(at: usize, name: &[u8]) -> (u64, u64) {
    if name.is_empty() { (0, 0) } else { (at as u64, name.len() as u64) }
}

/// "the logical name starts with `seed_` or `BLOCK_`, or contains `_prop`, `marker` or `drawing`"
pub(super) fn is_marker(name: &[u8]) -> bool {
    let contains = |text: &[u8]| name.windows(text.len()).any(|part| part == text);
    let starts = name.starts_with(b"seed_") || name.starts_with(b"BLOCK_");
    starts || contains(b"_prop") || contains(b"marker") || contains(b"drawing")
}
