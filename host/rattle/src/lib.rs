//! The Rattle side: its C functions, and its answer to a case.
mod lookups;
pub mod meshes;
pub mod models;
mod outputs;
pub mod polygons;
mod regions;
pub mod stacks;
pub mod welds;

use cases::call::Call::*;
use cases::case::{Answer, Case};
pub use lookups::answer as answer_on;
pub use openrdson::raw;
use outputs::{plain, Outputs};
pub use outputs::Said;
use raw::*;

pub fn answer(case: &Case) -> Said {
    let (xs, nx, ys, ny) = (case.xs.as_ptr(), case.xs.len(), case.ys.as_ptr(), case.ys.len());
    let mut outputs = Outputs::new();
    let [o1, o2, o3, o4, ..] = outputs.places::<f64>();
    let [truth, ..] = outputs.places::<bool>();
    let [a, b, c, d, e, f] = case.floats();
    let (start, count) = (case.start(), case.count());
    let [material, net, polygon] = case.region;
    let x = a;
    let status = unsafe {
        match case.call {
            PolygonSignedArea => openrdson_polygon_signed_area(xs, nx, ys, ny, o1),
            PolygonArea => openrdson_polygon_area(xs, nx, ys, ny, o1),
            IsCcw => openrdson_is_ccw(xs, nx, ys, ny, truth),
            IsAxisAlignedRectangle => openrdson_is_axis_aligned_rectangle(xs, nx, ys, ny, truth),
            BboxFromPoints => openrdson_bbox_from_points(xs, nx, ys, ny, o1, o2, o3, o4),
            BoxVolume => openrdson_box_volume(a, b, c, d, e, f, xs, nx, ys, ny, o1),
            PrismVolume => openrdson_prism_volume(a, b, start, count, xs, nx, ys, ny, o1),
            BoxRegionVolume => {
                openrdson_box_region_volume(material, net, polygon, a, b, c, d, e, f, xs, nx, ys, ny, o1)
            }
            PrismRegionVolume => {
                openrdson_prism_region_volume(material, net, polygon, a, b, start, count, xs, nx, ys, ny, o1)
            }
            BoxFootprintBbox => openrdson_box_footprint_bbox(a, b, c, d, e, f, xs, nx, ys, ny, o1, o2, o3, o4),
            PrismFootprintBbox => openrdson_prism_footprint_bbox(a, b, start, count, xs, nx, ys, ny, o1, o2, o3, o4),
            CheckBlocks | LookUp | PhysicalName | CopyPhysicalName | LayerName | StackLayer | ViaLayers
            | MaterialNumber => {
                let lent: Vec<&[u8]> = case.lent.iter().map(|lent| &*lent.bytes).collect();
                return answer_on(case, &lent);
            }
            IsMarker => return whole(openrdson_is_marker(case.name().as_ptr(), case.name().len()) as u64),
            ExtrudePolygon | ExtrudeBox | TotalVolume => regions::status(case, &mut outputs),
            CellCount => openrdson_cell_count(a, b, outputs.places()[0]),
            AxisCoordinate => openrdson_axis_coordinate(a, b, c, case.place() as usize, o1),
            Sqrt => return float(openrdson_sqrt(x)),
            Abs => return float(openrdson_abs(x)),
            CeilCapped => return whole(openrdson_ceil_capped(x)),
            NearestCapped => return whole(openrdson_nearest_capped(x) as u64),
            CoordinateInRange => return whole(openrdson_coordinate_in_range(x) as u64),
            ExtentInRange => return whole(openrdson_extent_in_range(x) as u64),
            FigureInRange => return whole(openrdson_figure_in_range(x) as u64),
            BboxEmpty => return bounds(openrdson_bbox_empty()),
            BboxIsEmpty => return whole(openrdson_bbox_is_empty(bbox(case, 0)) as u64),
            BboxExtendPoint => return bounds(openrdson_bbox_extend_point(bbox(case, 0), Point { x: e, y: f })),
            BboxExtend => return bounds(openrdson_bbox_extend(bbox(case, 0), bbox(case, 4))),
            BboxUnion => return bounds(openrdson_bbox_union(bbox(case, 0), bbox(case, 4))),
            BboxWidth => return float(openrdson_bbox_width(bbox(case, 0))),
            BboxHeight => return float(openrdson_bbox_height(bbox(case, 0))),
            BboxCenter => {
                let p = openrdson_bbox_center(bbox(case, 0));
                return plain(Answer::floats(&[p.x, p.y]));
            }
            BoxZBottom => return float(openrdson_box_z_bottom(a, b, c, d, e, f)),
            BoxZTop => return float(openrdson_box_z_top(a, b, c, d, e, f)),
            PrismZBottom => return float(openrdson_prism_z_bottom(a, b, start, count)),
            PrismZTop => return float(openrdson_prism_z_top(a, b, start, count)),
        }
    };
    outputs.said(status, case.call.gives())
}

fn float(x: f64) -> Said {
    plain(Answer::floats(&[x]))
}

fn whole(value: u64) -> Said {
    plain(Answer::whole(value))
}

fn bounds(b: Bbox) -> Said {
    plain(Answer::floats(&[b.min_x, b.min_y, b.max_x, b.max_y]))
}

fn bbox(case: &Case, at: usize) -> Bbox {
    Bbox { min_x: case.float(at), min_y: case.float(at + 1), max_x: case.float(at + 2), max_y: case.float(at + 3) }
}
