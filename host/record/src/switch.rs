//! What crates/sample prints and writes: the same switch, stacked and meshed by the Rust.
use crate::sample::Sample;
use oracle::core::geometry::{LayerKey, Point, Solid, SolidModel, SolidRegion};
use oracle::core::layout::{LayoutIR, LayoutPolygon};
use oracle::core::mesh::{Element, Mesh};
use oracle::core::tech::{Conductor, Diffusion, LayerMap, TechStack, Via};
use oracle::geometry::{assemble_stack, total_volume, StackAssemblyReport};
use oracle::meshing::{mesh_model_with_options, MeshConfig, MeshOptions};
use std::collections::BTreeMap;

const LAYERS: [(i16, &str); 9] = [
    (1, "active"),
    (4, "poly"),
    (6, "contact"),
    (8, "metal1"),
    (17, "via1"),
    (10, "metal2"),
    (30, "metal3"),
    (60, "seed_gate"),
    (63, "pad_text"),
];

const CONDUCTING: [(&str, &str); 5] = [("active", "ndiff"), ("poly", "poly1"), ("metal1", "M1"), ("metal2", "M2"), ("metal3", "M3")];
const VIA: [(&str, &str); 2] = [("contact", "cont"), ("via1", "V1")];

/// Names, heights and thicknesses.
const CONDUCTORS: [(&str, f64, Option<f64>); 4] =
    [("poly1", 0.25e-6, Some(0.18e-6)), ("M1", 0.7e-6, Some(0.5e-6)), ("M2", 1.7e-6, Some(0.9e-6)), ("M3", 3.2e-6, None)];
const DIFFUSION: (&str, f64, f64) = ("ndiff", 0.0, 0.2e-6);

/// Names, the layers below and those above.
const VIAS: [(&str, &str, &str); 2] = [("cont", "ndiff", "M1"), ("V1", "M1", "M2")];

pub fn printed() -> Sample {
    let job = Job::new();
    let lines: Vec<String> = [job.outcomes(), job.regions(), job.totals()].concat();
    Sample { cases: lines.len(), bytes: (lines.join("\n") + "\n").into_bytes() }
}

/// The switch, and what the Rust makes of it.
pub struct Job {
    layout: LayoutIR,
    map: LayerMap,
    pub model: SolidModel,
    report: StackAssemblyReport,
    pub mesh: Mesh,
    refused: Vec<String>,
}

impl Job {
    pub fn new() -> Job {
        let (layout, map) = (layout(), map());
        let (model, report) = assemble_stack(&layout, &stack(), &map);
        let default = MeshConfig { lateral_cell: 2e-6, z_cell: 0.5e-6 };
        let options = MeshOptions { default, ..MeshOptions::default() }.with_layer("cont", 0.5e-6, 0.25e-6);
        let (mesh, refused) = mesh_model_with_options(&model, &options);
        Job { layout, map, model, report, mesh, refused }
    }

    fn outcomes(&self) -> Vec<String> {
        let outcome = |i: usize| match self.model.regions.iter().find(|region| region.source_polygon == Some(i)) {
            Some(region) if is_box(&region.solid) => "0 box",
            Some(_) => "1 prism",
            None => self.skipped(self.layout.polygons[i].layer.layer),
        };
        (0..self.layout.polygons.len()).map(|i| format!("polygon {i}: {}", outcome(i))).collect()
    }

    /// Why the report has a layer.
    fn skipped(&self, layer: i16) -> &'static str {
        let logical = self.layout.layer_name(layer).unwrap_or("");
        let physical = self.map.conducting.get(logical).or_else(|| self.map.via.get(logical));
        match () {
            _ if self.report.unmatched_layers.contains_key(&format!("layer:{layer}")) => "2 unnamed layer",
            _ if self.report.skipped_markers.contains_key(logical) => "3 marker",
            _ if self.report.unmatched_layers.contains_key(logical) => "4 unmatched",
            _ if physical.is_some_and(|name| self.report.no_z_range.contains_key(name)) => "5 no z range",
            _ => panic!("the Rust's report says nothing of layer {layer}"),
        }
    }

    fn regions(&self) -> Vec<String> {
        let line = |(i, region): (usize, &SolidRegion)| {
            let polygon = region.source_polygon.unwrap();
            let kind = if is_box(&region.solid) { "box" } else { "prism" };
            let elements = self.mesh.elements.iter().filter(|element| element.source_polygon == Some(polygon)).count();
            format!(
                "region {i} of polygon {polygon}: {kind}, material {}, diagnostic {}, elements {elements}, volume {}",
                region.material_id,
                self.diagnostic(i),
                cubic_micrometres(region.volume())
            )
        };
        self.model.regions.iter().enumerate().map(line).collect()
    }

    /// The refusal's number for what the Rust says of a region; 0 where it says nothing.
    pub fn diagnostic(&self, i: usize) -> u32 {
        let start = format!("region {i} (");
        match self.refused.iter().find(|text| text.starts_with(&start)) {
            None => 0,
            Some(text) if text.contains("no interior trapezoids") => 11,
            Some(text) => panic!("the Rust says of the switch: {text}"),
        }
    }

    /// The place in the model of the region that an element is of.
    pub fn region_of(&self, element: &Element) -> usize {
        self.model.regions.iter().position(|region| region.source_polygon == element.source_polygon).unwrap()
    }

    fn totals(&self) -> Vec<String> {
        vec![
            format!("mesh: {} nodes, {} elements", self.mesh.nodes.len(), self.mesh.elements.len()),
            format!("total volume: {}", cubic_micrometres(total_volume(&self.model.regions))),
        ]
    }
}

fn is_box(solid: &Solid) -> bool {
    matches!(solid, Solid::Box { .. })
}

/// To the nearest thousandth.
fn cubic_micrometres(volume: f64) -> String {
    let n = (volume * 1e21 - 0.5).ceil() as u64;
    format!("{}.{:03} um^3", n / 1000, n % 1000)
}

fn layout() -> LayoutIR {
    let polygon = |(layer, net, ring): (i16, &str, Vec<(f64, f64)>)| LayoutPolygon {
        layer: LayerKey::new(layer, 0),
        net: (!net.is_empty()).then(|| net.into()),
        points: ring.into_iter().map(|(x, y)| Point::new(x, y)).collect(),
        props: vec![],
    };
    LayoutIR {
        polygons: polygons().into_iter().map(polygon).collect(),
        layer_names: LAYERS.iter().map(|(layer, name)| (*layer, name.to_string())).collect(),
        ..LayoutIR::default()
    }
}

fn polygons() -> Vec<(i16, &'static str, Vec<(f64, f64)>)> {
    let active = || rectangle(1e-6, 1e-6, 9e-6, 9e-6);
    let gate = || vec![(4.4e-6, 0.0), (5e-6, 0.0), (5e-6, 10e-6), (7.4e-6, 10e-6), (7.4e-6, 11e-6), (4.4e-6, 11e-6)];
    let source = || rectangle(2e-6, 2e-6, 3e-6, 8e-6);
    let drain = || rectangle(6.5e-6, 2e-6, 7.5e-6, 8e-6);
    let pad = || {
        let low = [(1.5e-6, 2e-6), (3.5e-6, 2e-6), (4.5e-6, 3e-6), (4.5e-6, 7e-6)];
        let high = [(3.5e-6, 8e-6), (1.5e-6, 8e-6), (0.5e-6, 7e-6), (0.5e-6, 3e-6)];
        [low, high].concat()
    };
    let shield = || {
        let round = [(0.5e-6, 9.4e-6), (3.8e-6, 9.4e-6), (3.8e-6, 10e-6), (1.5e-6, 10e-6), (1.5e-6, 11e-6), (0.5e-6, 11e-6)];
        [round, round].concat()
    };
    vec![
        (1, "", active()),
        (4, "gate", gate()),
        (60, "gate", gate()),
        (6, "source", source()),
        (6, "drain", drain()),
        (8, "source", rectangle(1.5e-6, 1e-6, 3.5e-6, 9e-6)),
        (8, "drain", rectangle(6e-6, 1e-6, 8e-6, 9e-6)),
        (10, "", vec![(5e-6, 1e-6), (5e-6, 5e-6), (5e-6, 9e-6)]),
        (17, "source", source()),
        (17, "drain", drain()),
        (10, "source", pad()),
        (63, "source", pad()),
        (10, "drain", rectangle(5.5e-6, 2e-6, 8.5e-6, 8e-6)),
        (99, "", active()),
        (30, "", active()),
        (10, "", shield()),
    ]
}

fn rectangle(x0: f64, y0: f64, x1: f64, y1: f64) -> Vec<(f64, f64)> {
    vec![(x0, y0), (x1, y0), (x1, y1), (x0, y1)]
}

fn map() -> LayerMap {
    let named = |rows: &[(&str, &str)]| rows.iter().map(|(logical, physical)| (logical.to_string(), physical.to_string())).collect::<BTreeMap<_, _>>();
    LayerMap { conducting: named(&CONDUCTING), via: named(&VIA) }
}

fn stack() -> TechStack {
    let conductor = |(name, height, thickness): (&str, f64, Option<f64>)| Conductor {
        name: name.into(),
        height: Some(height),
        thickness,
        ..Conductor::default()
    };
    let via = |(name, bottom, top): (&str, &str, &str)| Via {
        name: name.into(),
        bottom_layer: Some(bottom.into()),
        top_layer: Some(top.into()),
        ..Via::default()
    };
    let (name, height, thickness) = DIFFUSION;
    TechStack {
        conductors: CONDUCTORS.map(conductor).into(),
        diffusions: vec![Diffusion { name: name.into(), height: Some(height), thickness: Some(thickness), ..Diffusion::default() }],
        vias: VIAS.map(via).into(),
        ..TechStack::default()
    }
}
