//! Worked shapes, refusals and limits, through the safe calls.
use openrdson::*;

fn ring(points: &[(f64, f64)]) -> Vec<Point> {
    points.iter().map(|&(x, y)| Point::new(x, y)).collect()
}

fn region(solid: Solid) -> SolidRegion {
    SolidRegion { material_id: 1, net: Some("VDD".into()), layer: Some("M1".into()), device_ref: None, source_polygon: Some(4), solid }
}

fn boxed(min: [f64; 3], max: [f64; 3]) -> SolidRegion {
    let ([min_x, min_y, z_bottom], [max_x, max_y, z_top]) = (min, max);
    region(Solid::Box { min_x, min_y, max_x, max_y, z_bottom, z_top })
}

fn prism(points: &[(f64, f64)]) -> SolidRegion {
    region(Solid::Prism { footprint: ring(points), z_bottom: 0.0, z_top: 1.0 })
}

fn cells(lateral_cell: f64, z_cell: f64) -> MeshConfig {
    MeshConfig { lateral_cell, z_cell }
}

const L: [(f64, f64); 6] = [(0.0, 0.0), (2.0, 0.0), (2.0, 1.0), (1.0, 1.0), (1.0, 2.0), (0.0, 2.0)];

#[test]
fn clips() {
    let clipped = |points: &[(f64, f64)]| triangulate_polygon(&ring(points)).map(|(_, triangles)| triangles);
    assert_eq!(clipped(&[(0.0, 0.0), (2.0, 0.0), (2.0, 2.0), (0.0, 2.0)]), Ok(vec![[3, 0, 1], [1, 2, 3]]));
    assert_eq!(clipped(&[(0.0, 0.0), (4.0, 0.0), (1.0, 1.0), (0.0, 4.0)]), Ok(vec![[0, 1, 2], [0, 2, 3]]));
    assert_eq!(clipped(&[(0.0, 0.0), (0.0, 1.0), (1.0, 0.0)]), Ok(vec![[2, 1, 0]]));
    assert_eq!(clipped(&[(0.0, 0.0), (1.0, 1.0), (2.0, 2.0)]), Ok(vec![[0, 1, 2]]));
    assert_eq!(clipped(&[(0.0, 0.0), (1.0, 1.0), (2.0, 2.0), (3.0, 3.0)]), Err(Refusal::ClippingStalled));
    assert_eq!(clipped(&[(0.0, 0.0), (1.0, 1.0), (0.0, 0.0)]), Err(Refusal::TooFewVertices));
    assert_eq!(clipped(&[]), Err(Refusal::TooFewVertices));
}

#[test]
fn cleans() {
    let points = ring(&[(0.0, 0.0), (0.0, 0.0), (1.0, 0.0), (0.0, 1.0), (0.0, 0.0)]);
    assert_eq!(dedup_ring(&points), Ok(ring(&[(0.0, 0.0), (1.0, 0.0), (0.0, 1.0)])));
    assert_eq!(triangulate_polygon(&points).unwrap().0.len(), 3);
}

#[test]
fn measures() {
    assert_eq!(polygon_signed_area(&ring(&[(0.0, 0.0), (0.0, 1.0), (1.0, 0.0)])), Ok(-0.5));
    assert_eq!(polygon_area(&ring(&L)), Ok(3.0));
    assert_eq!(is_ccw(&ring(&L)), Ok(true));
    assert_eq!(polygon_area(&vec![Point::new(0.0, 0.0); limits::RING_POINTS]), Ok(0.0));
    assert_eq!(polygon_area(&vec![Point::new(0.0, 0.0); limits::RING_POINTS + 1]), Err(Refusal::ListTooLong));
    assert_eq!(polygon_area(&ring(&[(f64::NAN, 0.0)])), Err(Refusal::NumberOutOfRange));
    assert_eq!(prism(&L).volume(), Ok(3.0));
    assert_eq!(total_volume(&[prism(&L), boxed([0.0; 3], [2.0; 3])]), Ok(11.0));
    assert_eq!(total_volume(&[]).unwrap().to_bits(), 0);
    let mut far = boxed([0.0; 3], [1.0; 3]);
    far.material_id = limits::MATERIAL + 1;
    assert_eq!(total_volume(&[far]), Err(Refusal::OutsideList));
}

#[test]
fn bounds() {
    let mut b = Bbox::default();
    assert!(b.is_empty() && b.width() == 0.0);
    b.extend_point(Point::new(1.0, 2.0));
    b.extend(&Bbox { min_x: 3.0, min_y: -1.0, max_x: 5.0, max_y: 2.0 });
    assert_eq!(b, Bbox { min_x: 1.0, min_y: -1.0, max_x: 5.0, max_y: 2.0 });
    assert_eq!((b.width(), b.height(), b.center()), (4.0, 3.0, Point::new(3.0, 0.5)));
    assert_eq!(b.union(&Bbox::empty()), b);
    assert_eq!(Bbox::from_points(&ring(&L)), Ok(Bbox { min_x: 0.0, min_y: 0.0, max_x: 2.0, max_y: 2.0 }));
    assert_eq!(prism(&L).solid.footprint_bbox(), Bbox::from_points(&ring(&L)));
}

#[test]
fn extrudes() {
    let bow_tie = ring(&[(0.0, 0.0), (1.0, 1.0), (1.0, 0.0), (0.0, 1.0)]);
    let made = extrude_polygon(&bow_tie, 0.0, 1.0, 2, Some("N".into()), None, None).unwrap();
    assert_eq!(made.solid, boxed([0.0; 3], [1.0; 3]).solid);
    assert_eq!((made.material_id, made.net.as_deref(), made.source_polygon), (2, Some("N"), None));
    let made = extrude_polygon(&ring(&L), 0.0, 1.0, 1, None, None, None).unwrap();
    assert_eq!(made.solid, prism(&L).solid);
    let sides = Bbox { min_x: 0.0, min_y: 0.0, max_x: 1.0, max_y: 1.0 };
    assert_eq!(extrude_box(sides, 0.0, 1.0, 1, None, None, None).unwrap().solid, boxed([0.0; 3], [1.0; 3]).solid);
    assert_eq!(extrude_box(sides, 0.0, 1.0, 769, None, None, None), Err(Refusal::OutsideList));
}

#[test]
fn counts_cells() {
    let small = 2f64.powi(-40);
    assert_eq!(cell_count(2.0 + small, 1.0), Ok(2));
    assert_eq!(cell_count(2.0 + 4.0 * small, 1.0), Ok(3));
    assert_eq!(cell_count(4096.0, 1.0), Ok(limits::CELLS));
    assert_eq!(cell_count(4097.0, 1.0), Err(Refusal::TooManyCells));
    assert_eq!(axis_coordinate(0.0, 3.0, 1.0, 2), Ok(2.0));
    assert_eq!(axis_coordinate(0.0, 3.0, 1.0, 4), Err(Refusal::OutsideList));
}

#[test]
fn meshes_a_box() {
    let region = boxed([0.0; 3], [2.0, 1.0, 1.0]);
    let mesh = mesh_region(&region, &cells(1.0, 1.0)).unwrap();
    assert_eq!(Room::for_region(&region, &cells(1.0, 1.0)), Room { nodes: 12, elements: 2 });
    assert_eq!(mesh.nodes.len(), 12);
    assert_eq!(mesh.nodes[5], Point3::new(2.0, 1.0, 0.0));
    assert_eq!(mesh.elements[0].nodes, [0, 1, 4, 3, 6, 7, 10, 9]);
    assert_eq!(mesh.elements[1].nodes, [1, 2, 5, 4, 7, 8, 11, 10]);
    let one = &mesh.elements[1];
    assert_eq!((one.kind, one.material_id, one.source_polygon), (ElementType::Hex, 1, Some(4)));
    assert_eq!((one.net.as_deref(), one.layer.as_deref()), (Some("VDD"), Some("M1")));
    assert_eq!(mesh_volume(&mesh), Ok(2.0));
    let refused = |region: &SolidRegion, cfg| mesh_region(region, &cfg).unwrap_err();
    assert_eq!(refused(&boxed([0.0; 3], [0.0, 1.0, 1.0]), cells(1.0, 1.0)), Refusal::DegenerateBox);
    assert_eq!(refused(&region, cells(0.0, 1.0)), Refusal::CellSizeNotPositive);
    assert_eq!(refused(&region, cells(f64::NAN, 1.0)), Refusal::NumberOutOfRange);
    assert_eq!(refused(&region, cells(1e-6, 1.0)), Refusal::TooManyCells);
    // 2,001 by 1,001 by 2 nodes are above a mesh's most.
    assert_eq!(refused(&region, cells(1e-3, 1.0)), Refusal::OutputTooShort);
}

#[test]
fn meshes_a_prism() {
    let cfg = MeshConfig::default();
    let mesh = mesh_region(&prism(&L), &cfg).unwrap();
    assert_eq!((mesh.nodes.len(), mesh.elements.len()), (16, 4));
    assert_eq!(mesh.elements[0].nodes, [0, 1, 2, 4, 5, 6]);
    assert_eq!(mesh.elements[1].nodes, [0, 2, 3, 4, 6, 7]);
    assert_eq!(mesh_volume(&mesh), Ok(3.0));
    let clipped = mesh_region(&prism(&[(0.0, 0.0), (4.0, 0.0), (1.0, 1.0), (0.0, 4.0)]), &cfg).unwrap();
    assert_eq!((clipped.nodes.len(), clipped.elements[0].nodes.clone()), (8, vec![0, 1, 2, 4, 5, 6]));
    assert_eq!(mesh_region(&prism(&[(0.0, 0.0), (0.0, 1.0), (0.0, 2.0)]), &cfg).unwrap_err(), Refusal::NoTrapezoid);
    assert_eq!(mesh_region(&prism(&[(0.0, 0.0)]), &cfg).unwrap_err(), Refusal::TooFewVertices);
    let flat = region(Solid::Prism { footprint: ring(&L), z_bottom: 1.0, z_top: 1.0 });
    assert_eq!(mesh_region(&flat, &cfg).unwrap_err(), Refusal::DegeneratePrism);
}

/// A zigzag whose edges all cross one height, at as many heights as it has points: the room that is lent is enough.
#[test]
fn has_room_for_zigzags() {
    for n in [3, 4, 5, 8, 31, 128] {
        let height = |i: usize| if i % 2 == 0 { 1.0 + i as f64 } else { -1.0 - i as f64 };
        let points: Vec<(f64, f64)> = (0..n).map(|i| ((i * i) as f64, height(i))).collect();
        let region = prism(&points);
        let mesh = mesh_region(&region, &MeshConfig::default()).unwrap();
        let room = Room::for_region(&region, &MeshConfig::default());
        assert!(mesh.nodes.len() <= room.nodes && mesh.elements.len() <= room.elements);
    }
    let full = vec![(0.0, 0.0); limits::RING_POINTS];
    assert!(Room::for_region(&prism(&full), &MeshConfig::default()).nodes <= limits::NODES);
}

fn model() -> SolidModel {
    let mut other = boxed([0.0; 3], [1.0; 3]);
    other.layer = Some("M2".into());
    SolidModel {
        regions: vec![boxed([1.0, 0.0, 0.0], [2.0, 1.0, 1.0]), prism(&[(0.0, 0.0), (0.0, 1.0), (0.0, 2.0)]), other, prism(&L)],
        material_names: vec!["M1".into()],
    }
}

#[test]
fn meshes_a_model() {
    let (mesh, diagnostics) = mesh_model(&model(), &cells(1.0, 1.0)).unwrap();
    assert_eq!((mesh.nodes.len(), mesh.elements.len()), (8 + 8 + 16, 1 + 1 + 4));
    assert_eq!(mesh.elements[1].nodes, [8, 9, 11, 10, 12, 13, 15, 14]);
    assert_eq!(mesh.elements[1].layer.as_deref(), Some("M2"));
    assert_eq!(diagnostics, [Diagnostic { region: 1, material: "M1".into(), refusal: Refusal::NoTrapezoid }]);
    assert_eq!(diagnostics[0].to_string(), "region 1 (M1) failed: no trapezoid (refusal 11)");
    let many = SolidModel { regions: vec![boxed([0.0; 3], [1.0; 3]); limits::REGIONS + 1], ..SolidModel::default() };
    assert_eq!(mesh_model(&many, &cells(1.0, 1.0)).unwrap_err(), Refusal::ListTooLong);
}

/// Regions of one material on two layers have the cell sizes of their layers.
#[test]
fn meshes_a_model_by_layer() {
    let options = MeshOptions { default: cells(1.0, 1.0), ..MeshOptions::default() };
    let options = options.with_layer("M2", 0.5, 0.25).with_layer("M9", -1.0, -1.0);
    let (mesh, diagnostics) = mesh_model_with_options(&model(), &options).unwrap();
    assert_eq!((mesh.nodes.len(), diagnostics.len()), (8 + 3 * 3 * 5 + 16, 1));
    let (plain, _) = mesh_model_with_options(&model(), &MeshOptions { default: cells(1.0, 1.0), ..MeshOptions::default() }).unwrap();
    let (same, _) = mesh_model(&model(), &cells(1.0, 1.0)).unwrap();
    assert_eq!((plain.nodes, plain.elements), (same.nodes, same.elements));
    let mut bad = model();
    bad.regions[2].material_id = 769;
    let (_, diagnostics) = mesh_model_with_options(&bad, &options).unwrap();
    assert_eq!(diagnostics[1], Diagnostic { region: 2, material: "?".into(), refusal: Refusal::OutsideList });
}

#[test]
fn welds() {
    let at = |x: f64| Point3::new(x, 0.0, 0.0);
    let kept = |nodes: &[Point3]| weld_nodes(&Mesh { nodes: nodes.to_vec(), ..Mesh::default() }, 1.0).unwrap().nodes;
    assert_eq!(kept(&[at(0.4), at(0.6)]), [at(0.4), at(0.6)]);
    assert_eq!(kept(&[at(-0.4), at(0.4)]), [at(-0.4)]);
    let (mesh, _) = mesh_model(&model(), &cells(1.0, 1.0)).unwrap();
    let welded = weld_nodes(&mesh, 1e-9).unwrap();
    assert_eq!(mesh_volume(&welded), mesh_volume(&mesh));
    assert!(welded.nodes.len() < mesh.nodes.len());
    assert_eq!(welded.elements[1].layer.as_deref(), Some("M2"));
    let mut outside = mesh.clone();
    outside.elements[0].nodes[3] = 1000;
    assert_eq!(weld_nodes(&outside, 1e-9).unwrap_err(), Refusal::NodeOutsideMesh);
    let mut short = mesh.clone();
    short.elements[0].nodes.pop();
    assert_eq!(mesh_volume(&short), Err(Refusal::OutsideList));
}

#[test]
fn stacks() {
    let polygon = |layer: i16, net: Option<&str>, points: &[(f64, f64)]| LayoutPolygon {
        layer: LayerKey::new(layer, 0),
        net: net.map(str::to_string),
        points: ring(points),
        props: Vec::new(),
    };
    let square = [(0.0, 0.0), (1.0, 0.0), (1.0, 1.0), (0.0, 1.0)];
    let names = [(1, "net_m1"), (2, "net_v1"), (3, "seed_x"), (4, "net_m9"), (5, "net_poly")];
    let layout = LayoutIR {
        polygons: vec![
            polygon(9, None, &square),
            polygon(3, None, &square),
            polygon(2, Some("VDD"), &L),
            polygon(4, None, &square),
            polygon(1, None, &square),
            polygon(5, None, &square),
        ],
        layer_names: names.map(|(layer, name)| (layer, name.to_string())).into(),
        ..LayoutIR::default()
    };
    let conductor = |name: &str, height: Option<f64>| Conductor {
        name: name.into(),
        height,
        thickness: Some(1.0),
        ..Conductor::default()
    };
    let stack = TechStack {
        conductors: vec![conductor("M1", Some(1.0)), conductor("M2", Some(3.0)), conductor("POLY", None)],
        vias: vec![Via { name: "V1".into(), bottom_layer: Some("M1".into()), top_layer: Some("M2".into()), ..Via::default() }],
        ..TechStack::default()
    };
    let pairs = |pairs: &[(&str, &str)]| pairs.iter().map(|(a, b)| (a.to_string(), b.to_string())).collect();
    let map = LayerMap { conducting: pairs(&[("net_m1", "M1"), ("net_poly", "POLY")]), via: pairs(&[("net_v1", "V1")]) };
    let (model, report) = assemble_stack(&layout, &stack, &map).unwrap();
    let via = &model.regions[0];
    assert_eq!((via.material_id, via.net.as_deref(), via.layer.as_deref(), via.source_polygon), (4, Some("VDD"), Some("V1"), Some(2)));
    assert_eq!(via.solid, Solid::Prism { footprint: ring(&L), z_bottom: 2.0, z_top: 3.0 });
    assert_eq!(model.regions[1].solid, boxed([0.0, 0.0, 1.0], [1.0, 1.0, 2.0]).solid);
    assert_eq!((model.regions.len(), model.regions[1].net.as_deref(), model.material_name(4)), (2, None, Some("V1")));
    let counted = |names: &[(&str, usize)]| names.iter().map(|&(name, count)| (name.to_string(), count)).collect();
    let expected = StackAssemblyReport {
        regions: 2,
        boxes: 1,
        prisms: 1,
        unmatched_layers: counted(&[("layer:9", 0), ("net_m9", 1)]),
        no_z_range: counted(&[("POLY", 1)]),
        skipped_markers: counted(&[("seed_x", 1)]),
    };
    assert_eq!(report, expected);
    for name in [String::new(), "x".repeat(33), "a\0b".into()] {
        let mut bad = stack.clone();
        bad.vias[0].top_layer = Some(name);
        assert_eq!(assemble_stack(&layout, &bad, &map).unwrap_err(), Refusal::BlockDamaged);
    }
    let mut high = stack.clone();
    high.conductors[0].height = Some(f64::INFINITY);
    assert_eq!(assemble_stack(&layout, &high, &map).unwrap_err(), Refusal::NumberOutOfRange);
}

#[test]
fn refuses_in_words() {
    for (place, refusal) in Refusal::ALL.into_iter().enumerate() {
        assert_eq!(refusal.number() as usize, place + 1);
        assert_eq!(Refusal::from_number(refusal.number()), Some(refusal));
    }
    assert_eq!((Refusal::from_number(0), Refusal::from_number(17)), (None, None));
    fn as_before() -> Result<f64, String> {
        Ok(polygon_area(&[Point::new(f64::INFINITY, 0.0)])?)
    }
    assert_eq!(as_before(), Err("number not finite or too large (refusal 1)".to_string()));
}
