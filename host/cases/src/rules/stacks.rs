//! The rules of stacking, transcribed: the refusals in their order, then each polygon's outcome and region. Whether a ring is a box, and its bounds, are
//! the Rust's.
use super::blocks::{figures, figures_of, found, is_marker, name, rows, Row as BlockRow};
use super::regions::REGIONS_MOST;
use super::{ring, POINTS_MOST};
use crate::regions::Row;
use crate::stacks::{Given, Job, Way, BLOCKS};
use oracle::core::geometry::{is_axis_aligned_rectangle, Bbox, Point};

type Rows<'a> = Vec<BlockRow<'a>>;

/// What is written, or the refusal.
pub fn answer(job: &Job) -> Result<Given, u32> {
    let mut blocks = vec![];
    for (kind, lent) in BLOCKS.iter().zip(&job.blocks) {
        blocks.push(rows(*kind, &lent.bytes).ok_or(14u32)?);
    }
    figures(&blocks[3])?;
    figures(&blocks[4])?;
    lists(job)?;
    for i in 0..job.layers.len() {
        polygon(job, i)?;
    }
    let given = stacked(job, &blocks);
    if given.rows.len() > job.regions[0] || given.outcomes.len() > job.outcomes {
        return Err(12);
    }
    Ok(given)
}

/// 16 and 2 of the polygon lists, the points and the region lists.
fn lists(job: &Job) -> Result<(), u32> {
    let n = job.layers.len();
    let polygons_equal = job.polygons.iter().all(|list| list.len() == n);
    let regions_equal = job.regions.iter().all(|length| *length == job.regions[0]);
    if !polygons_equal || !regions_equal || job.xs.len() != job.ys.len() {
        return Err(16);
    }
    if n > REGIONS_MOST || job.xs.len() > POINTS_MOST {
        return Err(2);
    }
    Ok(())
}

/// "polygon by polygon 15, 2, 1"
fn polygon(job: &Job, i: usize) -> Result<(), u32> {
    let part = job.part(i);
    if part.end > job.xs.len() {
        return Err(15);
    }
    match ring(&job.xs[part.clone()], &job.ys[part]) {
        0 => Ok(()),
        refusal => Err(refusal),
    }
}

fn stacked(job: &Job, blocks: &[Rows]) -> Given {
    let mut given = Given { rows: vec![], outcomes: vec![], ways: vec![], asked: false };
    for (i, layer) in job.layers.iter().enumerate() {
        let (way, range) = plan(blocks, *layer);
        given.ways.push(way);
        given.outcomes.push(match range {
            Some((z0, z1, material)) => {
                let row = region(job, i, [z0, z1], material);
                given.rows.push(row);
                row.kind
            }
            None => outcome(way),
        });
    }
    given
}

/// "2 unnamed layer, 3 marker, 4 unmatched, 5 no z range"
fn outcome(way: Way) -> u8 {
    match way {
        Way::Unnamed => 2,
        Way::Marker => 3,
        Way::Unmatched => 4,
        _ => 5,
    }
}

/// The two heights and the material of a layer's polygons, if they are extruded. "Tests go 2, 3, 4, 5."
fn plan(blocks: &[Rows], layer: i16) -> (Way, Option<(f64, f64, u32)>) {
    let Some(row) = blocks[0].iter().find(|row| row.key == layer.to_le_bytes()) else { return (Way::Unnamed, None) };
    let logical = name(row.value);
    if is_marker(logical) {
        return (Way::Marker, None);
    }
    // "The conducting map is asked first, then the via map"
    let Some(row) = found(&blocks[1], logical).or_else(|| found(&blocks[2], logical)) else { return (Way::Unmatched, None) };
    let physical = name(row.value);
    let (way, range) = match found(&blocks[5], physical) {
        Some(via) => via_range(blocks, via),
        None => layer_range(blocks, physical),
    };
    match range {
        None => (way, None),
        Some((z0, z1)) if z1 == z0 => (Way::Flat, None),
        Some((z0, z1)) if z1 < z0 => (Way::Inverted, None),
        Some((z0, z1)) => (way, Some((z0, z1, material(blocks, physical)))),
    }
}

/// "top of the bottom layer to bottom of the top layer"
fn via_range(blocks: &[Rows], via: &BlockRow) -> (Way, Option<(f64, f64)>) {
    let [bottom, top] = [name(&via.value[..32]), name(&via.value[32..])];
    if bottom.is_empty() || top.is_empty() {
        return (Way::ViaEndAbsent, None);
    }
    match (layer_range(blocks, bottom).1, layer_range(blocks, top).1) {
        (Some((_, z0)), Some((z1, _))) => (Way::Via, Some((z0, z1))),
        _ => (Way::ViaEndWithoutRange, None),
    }
}

/// "the conductor, else the diffusion, gives height to height + thickness. A conductor with a missing figure ends the search."
fn layer_range(blocks: &[Rows], asked: &[u8]) -> (Way, Option<(f64, f64)>) {
    let range = |row: &BlockRow| match figures_of(row.value) {
        [Some(height), Some(thickness)] => Some((height, height + thickness)),
        _ => None,
    };
    let diffusion = found(&blocks[4], asked);
    match found(&blocks[3], asked) {
        Some(conductor) => match range(conductor) {
            None if diffusion.and_then(range).is_some() => (Way::ConductorEndsSearch, None),
            None => (Way::FigureMissing, None),
            some => (Way::Conductor, some),
        },
        None => match diffusion.map(range) {
            None => (Way::NotInStack, None),
            Some(None) => (Way::FigureMissing, None),
            Some(some) => (Way::Diffusion, some),
        },
    }
}

/// "conductors, diffusions, then vias; a name's number is its first place plus 1"
fn material(blocks: &[Rows], physical: &[u8]) -> u32 {
    let place = blocks[3..].iter().flatten().position(|row| name(row.key) == physical);
    place.map_or(0, |place| place as u32 + 1)
}

fn region(job: &Job, i: usize, [z0, z1]: [f64; 2], material: u32) -> Row {
    let part = job.part(i);
    let points: Vec<Point> = job.xs[part.clone()].iter().zip(&job.ys[part]).map(|(x, y)| Point::new(*x, *y)).collect();
    let (net, polygon) = (job.nets()[i], i as u32);
    if is_axis_aligned_rectangle(&points) {
        let b = Bbox::from_points(&points);
        let bounds = [b.min_x, b.min_y, b.max_x, b.max_y, z0, z1];
        return Row { kind: 0, bounds, numbers: [0, 0, material, net, polygon] };
    }
    let bounds = [0.0, 0.0, 0.0, 0.0, z0, z1];
    Row { kind: 1, bounds, numbers: [job.starts()[i], job.counts()[i], material, net, polygon] }
}
