//! What is expected of a layout on its way to a volume: its regions by the rules (`rules`), each meshed as a model's are, and the weld and the volume of that
//! mesh. Where every name is UTF-8 and the Rust knows every refusal that there is, this is held to the Rust's `assemble_stack`, `mesh_model`, `weld_nodes`
//! and `mesh_volume`, each on what the one before it gave.
use super::meshes as of_meshes;
use super::models::{self, is_for_the_rust, quiet, regions_of, tried};
use super::stacks::{self, inputs};
use super::welds;
use crate::layouts::Job;
use crate::meshes;
use crate::models::{Given, Job as Model};
use crate::regions::Regions;
use crate::welds::{Given as Whole, Job as Weld, Mesh};
use oracle::core::geometry::SolidModel;
use oracle::geometry::assemble_stack;
use oracle::meshing::{mesh_model, mesh_volume, weld_nodes, MeshConfig};

/// What the calls after stacking are lent, and what each gives.
pub struct Path {
    pub model: Model,
    pub meshed: Given,
    /// The weld and the volume, of a mesh of few nodes.
    pub whole: Option<[(Weld, Whole); 2]>,
    /// Whether the Rust was asked.
    pub asked: bool,
}

/// The refusal is that of stacking.
pub fn answer(job: &Job) -> Result<Path, u32> {
    let stacked = stacks::answer(&job.stack)?;
    let model = job.model(Regions::of(&stacked.rows));
    let meshed = models::answer(&model).expect("a stacked layout is a model");
    let whole = job.weld(lists_of(&meshed.mesh, &meshed.regions)).map(|weld| welded_and_measured(job, weld));
    let inputs = inputs(&job.stack).filter(|_| is_for_the_rust(&model, &meshed));
    let path = Path { model, meshed, whole, asked: inputs.is_some() };
    if let Some(inputs) = inputs {
        let (solids, _) = assemble_stack(&inputs.layout, &inputs.stack, &inputs.map);
        hold(&path, &solids);
    }
    Ok(path)
}

fn welded_and_measured(job: &Job, weld: Weld) -> [(Weld, Whole); 2] {
    let (welded, _) = welds::answer(&weld).expect("a layout's mesh is welded");
    let measure = job.measure(match &welded {
        Whole::Welded { mesh, regions } => lists_of(mesh, regions),
        Whole::Volume(_) => unreachable!(),
    });
    let (volume, _) = welds::answer(&measure).expect("a welded mesh is measured");
    [(weld, welded), (measure, volume)]
}

fn lists_of(mesh: &meshes::Given, regions: &[u32]) -> Mesh {
    let coordinates = std::array::from_fn(|axis| mesh.nodes.iter().map(|node| node[axis]).collect());
    Mesh { coordinates, kinds: mesh.kinds.clone(), places: mesh.places.clone(), regions: regions.to_vec() }
}

/// The Rust's mesh of the model that it assembled, the polygon that an element carries telling its region; that mesh welded; and the volume of this one.
fn hold(path: &Path, solids: &SolidModel) {
    let (given, [lateral_cell, z_cell]) = (&path.meshed, path.model.cells);
    let (mesh, texts) = quiet(|| mesh_model(solids, &MeshConfig { lateral_cell, z_cell }));
    assert!(given.mesh.same(&of_meshes::given(&mesh, 0)), "the rules and the Rust differ in a layout's mesh");
    let polygon_of = |region: &u32| solids.regions[*region as usize].source_polygon.unwrap() as u32;
    assert!(given.regions.iter().map(polygon_of).eq(regions_of(&mesh)), "the rules and the Rust differ in an element's region");
    assert!(given.tried == tried(&path.model.regions.kinds, &texts), "the rules and the Rust differ in a diagnostic: {texts:?}");
    if let Some([(weld, _), (measure, volume)]) = &path.whole {
        let welded = weld_nodes(&mesh, weld.tolerance);
        let lists = welds::lists_of(&welded, measure.mesh.regions.clone());
        assert!(lists.same(&measure.mesh), "the rules and the Rust differ in a layout's welded mesh");
        assert!(matches!(volume, Whole::Volume(x) if x.to_bits() == mesh_volume(&welded).to_bits()), "the rules and the Rust differ in a layout's volume");
    }
}
