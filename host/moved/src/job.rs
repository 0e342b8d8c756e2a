// Stacks a layout, meshes the model in three ways, welds and measures. Every value is printed whole: two different floats
// never have the same text.

pub fn lines() -> Vec<String> {
    let mut lines = Vec::new();
    let (model, report) = done(assemble_stack(&layout(), &stack(), &map()));
    lines.push(format!("{report:?}"));
    lines.push(format!("{:?}", model.material_names));
    lines.extend(model.regions.iter().map(|region| format!("{region:?}")));
    lines.push(format!("{:?} {:?}", done(model.total_volume()), done(total_volume(&model.regions))));

    let cfg = MeshConfig { lateral_cell: 0.75, z_cell: 0.3 };
    for region in &model.regions {
        lines.push(match mesh_region(region, &cfg) {
            Ok(mesh) => format!("{mesh:?}"),
            Err(_) => "refused".to_string(),
        });
        lines.push(format!("{:?} {:?}", done(region.volume()), done(region.solid.footprint_bbox())));
    }
    let opts = MeshOptions { default: cfg, ..MeshOptions::default() }.with_layer("M1", 0.5, 0.2).with_layer("V1", 9.0, 9.0);
    for (mesh, diagnostics) in [done(mesh_model(&model, &cfg)), done(mesh_model_with_options(&model, &opts))] {
        lines.push(format!("{mesh:?}"));
        let refused = |line: String| line.split(" failed").next().unwrap_or("").to_string();
        lines.extend(diagnostics.iter().map(|one| refused(one.to_string())));
        for tolerance in [1e-9, 0.5] {
            let welded: Mesh = done(weld_nodes(&mesh, tolerance));
            lines.push(format!("{welded:?} {:?} {:?}", done(mesh_volume(&mesh)), done(mesh_volume(&welded))));
        }
    }

    for points in shapes() {
        lines.push(format!("{:?} {:?}", done(polygon_signed_area(&points)), done(polygon_area(&points))));
        lines.push(format!("{:?} {:?}", done(is_ccw(&points)), done(is_axis_aligned_rectangle(&points))));
        lines.push(format!("{:?}", triangulate_polygon(&points).ok()));
        let region = done(extrude_polygon(&points, -0.5, 1.5, 3, Some("N".to_string()), None, Some("D".to_string())));
        lines.push(format!("{region:?} {:?}", mesh_region(&region, &MeshConfig { lateral_cell: 1.0, z_cell: 1.0 }).ok()));
        let mut bounds: Bbox = done(Bbox::from_points(&points));
        bounds.extend_point(Point::new(-7.0, 0.1));
        let more = bounds.union(&Bbox::empty());
        lines.push(format!("{bounds:?} {more:?} {:?} {} {}", more.center(), more.width(), more.height()));
        lines.push(format!("{:?}", done(extrude_box(bounds, 0.0, 0.7, 0, None, Some("M1".to_string()), None))));
    }
    lines
}

fn ring(points: &[(f64, f64)]) -> Vec<Point> {
    points.iter().map(|&(x, y)| Point::new(x, y)).collect()
}

fn shapes() -> Vec<Vec<Point>> {
    vec![
        ring(&[(0.0, 0.0), (2.5, 0.0), (2.5, 1.3), (0.0, 1.3)]),
        ring(&[(0.0, 0.0), (4.0, 0.0), (1.0, 1.0), (0.0, 4.0)]),
        ring(&[(0.0, 0.0), (0.0, 1.0), (1.0, 0.0)]),
        ring(&[(0.0, 0.0), (1.0, 1.0), (1.0, 0.0), (0.0, 1.0)]),
        ring(&[(0.0, 0.0), (2.0, 0.0), (2.0, 1.0), (1.0, 1.0), (1.0, 2.0), (0.0, 2.0)]),
        ring(&[(0.0, 0.0), (2.0, 1.0), (1.0, 2.0), (-1.5e-16, 0.0), (1.5e-16, 0.0)]),
        ring(&[(0.1, 0.2), (3.7, 0.9), (2.2, 2.8), (1.9, 1.1), (0.4, 2.6), (0.1, 0.2)]),
        ring(&[(0.0, 0.0), (3.0, 2.0), (3.0, 0.0), (0.0, 2.1), (1.5, 5.0)]),
        ring(&[(0.0, 0.0), (0.0, 1.0), (0.0, 2.0)]),
    ]
}

fn layout() -> LayoutIR {
    let names = ["net_m1", "net_m2", "net_v1", "seed_m1", "net_poly", "net_other", "net_flat"];
    let polygon = |(place, points): (usize, Vec<Point>)| LayoutPolygon {
        layer: LayerKey::new([1, 2, 3, 7, 2, 4, 5, 9, 1, 6][place % 10], 0),
        net: (place % 2 == 0).then(|| format!("net{place}")),
        points,
        props: Vec::new(),
    };
    let twice = shapes().into_iter().chain(shapes().into_iter().skip(1));
    LayoutIR {
        polygons: twice.enumerate().map(polygon).collect(),
        layer_names: (1..).zip(names.map(str::to_string)).collect(),
        ..LayoutIR::default()
    }
}

fn stack() -> TechStack {
    let conductor = |name: &str, height: Option<f64>, thickness: Option<f64>| Conductor {
        name: name.to_string(),
        height,
        thickness,
        ..Conductor::default()
    };
    let via = |name: &str, bottom: &str, top: Option<&str>| Via {
        name: name.to_string(),
        bottom_layer: Some(bottom.to_string()),
        top_layer: top.map(str::to_string),
        ..Via::default()
    };
    TechStack {
        conductors: vec![conductor("M1", Some(0.1), Some(0.7)), conductor("M2", Some(1.9), Some(0.9)), conductor("P", None, Some(1.0))],
        diffusions: vec![Diffusion { name: "OD".to_string(), height: Some(-0.4), thickness: Some(0.4), ..Diffusion::default() }],
        vias: vec![via("V1", "M1", Some("M2")), via("V2", "M2", None)],
        ..TechStack::default()
    }
}

fn map() -> LayerMap {
    let pairs = |pairs: &[(&str, &str)]| pairs.iter().map(|(a, b)| (a.to_string(), b.to_string())).collect();
    LayerMap {
        conducting: pairs(&[("net_m1", "M1"), ("net_m2", "M2"), ("net_poly", "P"), ("net_flat", "OD")]),
        via: pairs(&[("net_v1", "V1"), ("net_m1", "V2")]),
    }
}
