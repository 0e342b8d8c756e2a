//! The original's geometry: extruding, the total volume, stacking.
pub(crate) mod blocks;

use crate::calls;
use crate::core::geometry::{Bbox, Point, SolidModel, SolidRegion};
use crate::core::layout::LayoutIR;
use crate::core::tech::{LayerMap, TechStack};
use crate::lists::{narrow, Points, Row, Rows};
use crate::Refusal;
use blocks::Blocks;
use std::collections::BTreeMap;

/// A box exactly if the footprint is an axis-aligned rectangle. Refused: 2, 1, heights last, 15 for the material.
pub fn extrude_polygon(
    points: &[Point],
    z_bottom: f64,
    z_top: f64,
    material_id: u32,
    net: Option<String>,
    layer: Option<String>,
    device_ref: Option<String>,
) -> Result<SolidRegion, Refusal> {
    let ring = Points::of(points);
    let row = calls::extrude_polygon(&ring, z_bottom, z_top, material_id)?;
    Ok(labelled(&row, &ring, net, layer, device_ref))
}

/// Refused: 1, 15 for the material.
pub fn extrude_box(
    bbox: Bbox,
    z_bottom: f64,
    z_top: f64,
    material_id: u32,
    net: Option<String>,
    layer: Option<String>,
    device_ref: Option<String>,
) -> Result<SolidRegion, Refusal> {
    let row = calls::extrude_box(bbox, z_bottom, z_top, material_id)?;
    Ok(labelled(&row, &Points::default(), net, layer, device_ref))
}

fn labelled(
    row: &Row,
    points: &Points,
    net: Option<String>,
    layer: Option<String>,
    device_ref: Option<String>,
) -> SolidRegion {
    SolidRegion {
        material_id: row.material,
        net,
        layer,
        device_ref,
        source_polygon: row.source_polygon(),
        solid: row.solid(points),
    }
}

/// +0 of no region. Refused: 2 for the regions or their points, then region by region 15 for its material, 2, 1.
pub fn total_volume(regions: &[SolidRegion]) -> Result<f64, Refusal> {
    let (rows, points) = Rows::of(regions, |region| region.material_id);
    calls::total_volume(&rows, &points)
}

/// What became of the polygons, counted by name.
#[derive(Debug, Clone, Default, PartialEq, Eq)]
pub struct StackAssemblyReport {
    pub regions: usize,
    pub boxes: usize,
    pub prisms: usize,
    /// By logical name; a layer N without a name is `layer:N`, and counted 0 as in the original.
    pub unmatched_layers: BTreeMap<String, usize>,
    /// By physical name.
    pub no_z_range: BTreeMap<String, usize>,
    /// By logical name.
    pub skipped_markers: BTreeMap<String, usize>,
}

/// The polygons that stacking is lent.
pub(crate) struct Polygons {
    pub layers: Vec<i16>,
    pub nets: Vec<u32>,
    pub starts: Vec<u32>,
    pub counts: Vec<u32>,
    pub points: Points,
}

impl Polygons {
    /// A polygon's net is its place plus 1, if it has one.
    fn of(layout: &LayoutIR) -> Polygons {
        let mut points = Points::default();
        let parts: Vec<(u32, u32)> = layout.polygons.iter().map(|polygon| points.add(&polygon.points)).collect();
        let (starts, counts) = parts.into_iter().unzip();
        let net = |(place, net): (usize, bool)| if net { narrow(place + 1) } else { 0 };
        Polygons {
            layers: layout.polygons.iter().map(|polygon| polygon.layer.layer).collect(),
            nets: layout.polygons.iter().map(|polygon| polygon.net.is_some()).enumerate().map(net).collect(),
            starts,
            counts,
            points,
        }
    }
}

/// Refused: 14 for a name that is empty, longer than 32 bytes or with a zero byte, or for more than 256 rows of a kind; 1 for
/// a height or a thickness; 2; then polygon by polygon 2, 1.
pub fn assemble_stack(
    layout: &LayoutIR,
    stack: &TechStack,
    map: &LayerMap,
) -> Result<(SolidModel, StackAssemblyReport), Refusal> {
    let polygons = Polygons::of(layout);
    // Each polygon gives a region at most.
    let mut rows = Rows::room(layout.polygons.len());
    let mut outcomes = vec![0; layout.polygons.len()];
    let regions = calls::assemble_stack(&Blocks::of(layout, stack, map), &polygons, &mut rows, &mut outcomes)?;
    let physical = |place: usize| {
        let logical = layout.layer_name(layout.polygons[place].layer.layer)?;
        map.physical(logical).map(str::to_string)
    };
    let region = |place: usize| {
        let row = rows.row(place);
        let net = (row.net as usize).checked_sub(1).and_then(|polygon| layout.polygons[polygon].net.clone());
        let layer = row.source_polygon().and_then(physical);
        labelled(&row, &polygons.points, net, layer, None)
    };
    let model = SolidModel { regions: (0..regions).map(region).collect(), material_names: stack.materials() };
    Ok((model, report(layout, map, &outcomes)))
}

/// The original's counts, from the outcomes.
fn report(layout: &LayoutIR, map: &LayerMap, outcomes: &[u8]) -> StackAssemblyReport {
    let mut report = StackAssemblyReport::default();
    for (polygon, outcome) in layout.polygons.iter().zip(outcomes) {
        let layer = polygon.layer.layer;
        let logical = layout.layer_name(layer).unwrap_or("");
        match outcome {
            0 => report.boxes += 1,
            1 => report.prisms += 1,
            2 => *report.unmatched_layers.entry(format!("layer:{layer}")).or_insert(0) += 0,
            3 => *report.skipped_markers.entry(logical.to_string()).or_insert(0) += 1,
            4 => *report.unmatched_layers.entry(logical.to_string()).or_insert(0) += 1,
            _ => *report.no_z_range.entry(map.physical(logical).unwrap_or("").to_string()).or_insert(0) += 1,
        }
    }
    report.regions = report.boxes + report.prisms;
    report
}
