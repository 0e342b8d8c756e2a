//! What the Rust says of extruding, and of the total volume of a region list.
use super::{points, ring};
use crate::case::{word, Answer, Case};
use crate::regions::{Row, NO_POLYGON};
use oracle::core::geometry::{Bbox, Point, Solid, SolidRegion};
use oracle::geometry::{extrude_box, extrude_polygon, total_volume};

pub fn polygon(case: &Case) -> Answer {
    let [z_bottom, z_top] = case.floats();
    let [material, net, _] = case.region;
    let ring = ring(case);
    let region = extrude_polygon(&ring, z_bottom, z_top, material, net_name(net), None, None);
    accepted(&row(&region, &ring, 0))
}

pub fn boxed(case: &Case) -> Answer {
    let [min_x, min_y, max_x, max_y, z_bottom, z_top] = case.floats();
    let [material, net, _] = case.region;
    let sides = Bbox { min_x, min_y, max_x, max_y };
    let region = extrude_box(sides, z_bottom, z_top, material, net_name(net), None, None);
    accepted(&row(&region, &[], 0))
}

fn accepted(row: &Row) -> Answer {
    Answer::accepted(&row.words())
}

/// "Nets are the caller's u32, 0 for none."
pub fn net_name(net: u32) -> Option<String> {
    (net != 0).then(|| net.to_string())
}

/// The Rust's region as a row of a region list. Its prism has the points of the polygon, which stand at this start.
pub fn row(region: &SolidRegion, ring: &[Point], start: u32) -> Row {
    let net = region.net.as_ref().map_or(0, |name| name.parse().unwrap());
    let polygon = region.source_polygon.map_or(NO_POLYGON, |polygon| polygon as u32);
    let (kind, bounds, start, count) = match &region.solid {
        Solid::Box { min_x, min_y, max_x, max_y, z_bottom, z_top } => {
            (0, [*min_x, *min_y, *max_x, *max_y, *z_bottom, *z_top], 0, 0)
        }
        Solid::Prism { footprint, z_bottom, z_top } => {
            let same = |(a, b): (&Point, &Point)| word(a.x) == word(b.x) && word(a.y) == word(b.y);
            assert!(footprint.len() == ring.len() && footprint.iter().zip(ring).all(same));
            (1, [0.0, 0.0, 0.0, 0.0, *z_bottom, *z_top], start, ring.len() as u32)
        }
    };
    Row { kind, bounds, numbers: [start, count, region.material_id, net, polygon] }
}

/// "Totals start from +0": the Rust's sum of nothing is -0, which docs/DIFFERENCES.md tells; any other sum is compared as it is.
pub fn total(case: &Case) -> Answer {
    let regions: Vec<SolidRegion> = case.regions.rows().map(|row| region(&row, case)).collect();
    let total = total_volume(&regions);
    if regions.is_empty() {
        assert_eq!(total.to_bits(), (-0.0f64).to_bits());
        return Answer::floats(&[0.0]);
    }
    Answer::floats(&[total])
}

fn region(row: &Row, case: &Case) -> SolidRegion {
    let [min_x, min_y, max_x, max_y, z_bottom, z_top] = row.bounds;
    let [_, _, material_id, net, polygon] = row.numbers;
    let solid = if row.kind == 0 {
        Solid::Box { min_x, min_y, max_x, max_y, z_bottom, z_top }
    } else {
        Solid::Prism { footprint: points(&case.xs[row.part()], &case.ys[row.part()]), z_bottom, z_top }
    };
    let source_polygon = (polygon != NO_POLYGON).then_some(polygon as usize);
    SolidRegion { material_id, net: net_name(net), layer: None, device_ref: None, source_polygon, solid }
}
