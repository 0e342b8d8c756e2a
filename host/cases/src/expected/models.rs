//! What is expected of a call that meshes a model: a refusal by the rules (`rules`), or else each region as the single region call's expected answer has it,
//! after what is there. Where the mesh was empty and the Rust knows every refusal that there is, this is held to the Rust's own model call on all the
//! regions: its nodes, its elements, the region of each, and which regions its diagnostics name, and why.
use super::meshes::{self, fault_of, is_known_to_the_rust, true_of};
use super::points;
use crate::meshes as single;
use crate::models::Kind::*;
use crate::models::{Call, Fault, Given, Job, Kind};
use crate::rules::meshes::MESH_MOST;
use crate::rules::models::{cells, judged};
use crate::regions::Row;
use oracle::core::geometry::{Solid, SolidModel, SolidRegion};
use oracle::core::log;
use oracle::core::mesh::Mesh;
use oracle::meshing::{mesh_model, mesh_model_with_options, MeshConfig, MeshOptions};

pub fn answer(job: &Job) -> Result<Given, Fault> {
    judged(job)?;
    let mut given = by_region(job, job.counts, job.lengths);
    if is_for_the_rust(job, &given) {
        let (mesh, texts) = of_the_rust(job);
        assert!(single::Given::same(&given.mesh, &meshes::given(&mesh, 0)), "the rules and the Rust's model differ in the mesh");
        assert!(given.regions == regions_of(&mesh), "the rules and the Rust's model differ in an element's region");
        assert!(given.tried == tried(&job.regions.kinds, &texts), "the rules and the Rust's model differ in a diagnostic: {texts:?}");
        given.asked = true;
    }
    given.said = said(job, &given);
    Ok(given)
}

/// How many nodes and elements the regions give in an empty mesh with room for any; none where the point lists are not equally long.
pub fn sizes(job: &Job) -> [usize; 2] {
    if job.xs.len() != job.ys.len() {
        return [0; 2];
    }
    let mesh = by_region(job, [0; 2], single::lengths(MESH_MOST, MESH_MOST)).mesh;
    [mesh.nodes.len(), mesh.kinds.len()]
}

/// The Rust's mesh of each region after those before it, or its refusal by the rules, in a mesh of these counts and of lists of these lengths.
fn by_region(job: &Job, [nodes, elements]: [usize; 2], lengths: [usize; 6]) -> Given {
    let mesh = single::Given { nodes: vec![], kinds: vec![], places: vec![], said: vec![] };
    let mut given = Given { mesh, regions: vec![], tried: vec![], said: vec![], asked: false };
    for i in 0..job.regions.kinds.len() {
        let counts = [nodes + given.mesh.nodes.len(), elements + given.mesh.kinds.len()];
        let region = job.region(i).map(|region| single::Job { cells: cells(job, region.material), counts, lengths, ..region });
        let meshed = region.and_then(|region| meshes::answer(&region));
        given.tried.push(meshed.as_ref().err().copied());
        if let Ok(mut more) = meshed {
            given.regions.resize(given.regions.len() + more.kinds.len(), i as u32);
            given.mesh.nodes.append(&mut more.nodes);
            given.mesh.kinds.append(&mut more.kinds);
            given.mesh.places.append(&mut more.places);
            given.mesh.said.append(&mut more.said);
        }
    }
    given
}

/// "Counts 0 and 0 give the Rust's `mesh_region` and model answers."
pub fn is_for_the_rust(job: &Job, given: &Given) -> bool {
    job.counts == [0; 2] && given.tried.iter().flatten().all(|fault| is_known_to_the_rust(*fault))
}

/// The Rust's own call on all the regions.
fn of_the_rust(job: &Job) -> (Mesh, Vec<String>) {
    let (model, options) = (model(job), options(job));
    match job.call {
        Call::MeshModel => quiet(|| mesh_model(&model, &options.default)),
        Call::MeshModelWithOptions => mesh_model_with_options(&model, &options),
    }
}

/// `mesh_model` writes a line to the log.
pub fn quiet<T>(call: impl FnOnce() -> T) -> T {
    log::set_level(log::WARN);
    call()
}

/// The Rust's model of an accepted job. Its elements carry their region's place as the polygon; a layer's name is its material's number.
pub fn model(job: &Job) -> SolidModel {
    SolidModel { regions: (0..job.regions.kinds.len()).map(|i| region(job, i)).collect(), material_names: vec![] }
}

fn region(job: &Job, i: usize) -> SolidRegion {
    let row = job.regions.row(i);
    let [min_x, min_y, max_x, max_y, z_bottom, z_top] = row.bounds;
    let solid = if row.kind == 0 {
        Solid::Box { min_x, min_y, max_x, max_y, z_bottom, z_top }
    } else {
        Solid::Prism { footprint: points(&job.xs[row.part()], &job.ys[row.part()]), z_bottom, z_top }
    };
    SolidRegion { material_id: row.material(), net: None, layer: layer(row.material()), device_ref: None, source_polygon: Some(i), solid }
}

/// "material 0 is \"unassigned\""
fn layer(material: u32) -> Option<String> {
    (material != 0).then(|| material.to_string())
}

/// The overrides, in their order.
pub fn options(job: &Job) -> MeshOptions {
    let [lateral_cell, z_cell] = job.cells;
    let mut options = MeshOptions { default: MeshConfig { lateral_cell, z_cell }, ..MeshOptions::default() };
    let [across, up] = &job.overrides.sizes;
    for (material, (across, up)) in job.overrides.materials.iter().zip(across.iter().zip(up)) {
        options = options.with_layer(&material.to_string(), *across, *up);
    }
    options
}

/// The polygon that each element carries.
pub fn regions_of(mesh: &Mesh) -> Vec<u32> {
    mesh.elements.iter().map(|element| element.source_polygon.unwrap() as u32).collect()
}

/// What the Rust's diagnostics, "region I (NAME) failed: WHY", say of each region, by the kinds of these.
pub fn tried(kinds: &[u8], texts: &[String]) -> Vec<Option<single::Fault>> {
    let mut tried = vec![None; kinds.len()];
    for text in texts {
        let (place, why) = text.strip_prefix("region ").and_then(|text| text.rsplit_once(" failed: ")).expect("no diagnostic");
        let place: usize = place.split(' ').next().unwrap().parse().unwrap();
        tried[place] = Some(fault_of(kinds[place] == 0, why));
    }
    tried
}

/// What is counted of a model that is meshed.
fn said(job: &Job, given: &Given) -> Vec<Kind> {
    let rows = job.regions.rows().zip(&given.tried).filter(|(_, fault)| fault.is_none()).map(|(row, _)| row);
    let (boxes, prisms): (Vec<Row>, Vec<Row>) = rows.partition(|row| row.kind == 0);
    let of_model = of_model(job, given, boxes.len() + prisms.len());
    true_of(of_model.into_iter().chain(of_rows(job, &boxes, &prisms)).chain(of_overrides(job, &boxes, &prisms))).collect()
}

/// By the diagnostics and the lists, of so many regions that are meshed.
fn of_model(job: &Job, given: &Given, meshed: usize) -> [(Kind, bool); 13] {
    let n = given.tried.len();
    let last = given.tried.iter().rposition(Option::is_none).unwrap_or(0);
    let before = given.tried[..last.min(n)].iter().flatten();
    let after = [job.counts[0] + given.mesh.nodes.len(), job.counts[1] + given.mesh.kinds.len()];
    [
        (NoRegion, n == 0),
        (Hundreds, n > 100),
        (MostRegions, n == 4096),
        (AllMeshed, n > 0 && meshed == n),
        (AllRefused, n > 0 && meshed == 0),
        (MeshedAfterRefused, before.clone().count() > 0),
        (MeshedAfterFull, before.clone().any(|fault| fault.status() == 12)),
        (Appended, job.counts[0] > 0 && job.counts[1] > 0 && meshed > 0),
        (ExactlyFull, meshed > 0 && after == [job.lengths[0], job.lengths[3]]),
        (DiagnosticsFull, n > 0 && job.diagnostics == n),
        (DiagnosticsLeft, job.diagnostics > n),
        (MostNodes, after[0] == MESH_MOST),
        (MostOverrides, job.overrides.materials.len() == 4096),
    ]
}

/// By the rows that are meshed.
fn of_rows(job: &Job, boxes: &[Row], prisms: &[Row]) -> [(Kind, bool); 5] {
    let is_of = |material: u32| boxes.iter().any(|row| row.material() == material);
    [
        (Mixed, !boxes.is_empty() && !prisms.is_empty()),
        (Unassigned, is_of(0)),
        (LargestMaterial, is_of(768)),
        (BoxPartUnread, boxes.iter().any(|row| row.part().end > job.xs.len())),
        (PrismBoundsUnread, prisms.iter().any(|row| !row.bounds[..4].iter().all(|x| x.abs() <= 1_048_576.0))),
    ]
}

/// By the cell sizes of the rows that are meshed.
fn of_overrides(job: &Job, boxes: &[Row], prisms: &[Row]) -> [(Kind, bool); 5] {
    let all = &job.overrides;
    let is_bad = |cells: &[f64; 2]| !cells.iter().all(|size| *size > 0.0 && *size <= 1_048_576.0);
    let bad: Vec<u32> = all.materials.iter().copied().filter(|material| all.of(*material).last().is_some_and(|cells| is_bad(&cells))).collect();
    let rows = || boxes.iter().chain(prisms);
    [
        (Overridden, boxes.iter().any(|row| all.of(row.material()).count() > 0)),
        (LaterWins, boxes.iter().any(|row| all.of(row.material()).next() != all.of(row.material()).last())),
        (DefaultBad, is_bad(&job.cells) && !boxes.is_empty()),
        (OtherBad, rows().any(|row| bad.iter().any(|material| *material != row.material()))),
        (PrismWithBad, prisms.iter().any(|row| bad.contains(&row.material()))),
    ]
}
