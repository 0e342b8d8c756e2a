//! The calls that give a region, and those on a region list.
use crate::outputs::Outputs;
use crate::raw::*;
use cases::call::Call::*;
use cases::case::Case;

/// The status of the call, its values among the outputs.
pub unsafe fn status(case: &Case, outputs: &mut Outputs) -> u32 {
    let (xs, nx, ys, ny) = (case.xs.as_ptr(), case.xs.len(), case.ys.as_ptr(), case.ys.len());
    let [kind, ..] = outputs.places::<u8>();
    let [volume, min_x, min_y, max_x, max_y, z_bottom, z_top, ..] = outputs.places::<f64>();
    let [.., start, count, out_material, out_net, polygon] = outputs.places::<u32>();
    let [a, b, c, d, e, f] = case.floats();
    let [material, net, _] = case.region;
    match case.call {
        ExtrudePolygon => openrdson_extrude_polygon(
            xs, nx, ys, ny, a, b, material, net,
            kind, min_x, min_y, max_x, max_y, z_bottom, z_top, start, count, out_material, out_net, polygon,
        ),
        ExtrudeBox => openrdson_extrude_box(
            Bbox { min_x: a, min_y: b, max_x: c, max_y: d }, e, f, material, net,
            kind, min_x, min_y, max_x, max_y, z_bottom, z_top, start, count, out_material, out_net, polygon,
        ),
        TotalVolume => {
            let kinds = &case.regions.kinds;
            let [x0, y0, x1, y1, z0, z1] = case.regions.bounds.each_ref().map(|list| (list.as_ptr(), list.len()));
            let [s, n, m, t, p] = case.regions.numbers.each_ref().map(|list| (list.as_ptr(), list.len()));
            openrdson_total_volume(
                kinds.as_ptr(), kinds.len(), x0.0, x0.1, y0.0, y0.1, x1.0, x1.1, y1.0, y1.1, z0.0, z0.1, z1.0, z1.1,
                s.0, s.1, n.0, n.1, m.0, m.1, t.0, t.1, p.0, p.1, xs, nx, ys, ny, volume,
            )
        }
        _ => unreachable!("{} is no call on regions", case.call.name()),
    }
}
