//! The original's meshing: rings, regions, models, weld and volume.
use crate::calls;
use crate::core::geometry::{Bbox, Point, Solid, SolidModel, SolidRegion};
use crate::core::mesh::Mesh;
use crate::limits;
use crate::lists::{narrow, Labels, MeshLists, Points, Rows};
use crate::Refusal;
use std::collections::BTreeMap;
use std::fmt;

/// Cell sizes, in meters: across, and in height.
#[derive(Debug, Clone, Copy, PartialEq)]
pub struct MeshConfig {
    pub lateral_cell: f64,
    pub z_cell: f64,
}

impl Default for MeshConfig {
    fn default() -> MeshConfig {
        MeshConfig { lateral_cell: 1e-6, z_cell: 0.1e-6 }
    }
}

/// The cell sizes of a layer.
#[derive(Debug, Clone, Copy, PartialEq)]
pub struct LayerMesh {
    pub lateral_cell: f64,
    pub z_cell: f64,
}

/// Cell sizes, with others by the region's layer.
#[derive(Debug, Clone, Default)]
pub struct MeshOptions {
    pub default: MeshConfig,
    pub per_layer: BTreeMap<String, LayerMesh>,
}

impl MeshOptions {
    pub fn with_layer(mut self, layer: &str, lateral_cell: f64, z_cell: f64) -> MeshOptions {
        self.per_layer.insert(layer.to_string(), LayerMesh { lateral_cell, z_cell });
        self
    }

    pub fn for_region(&self, region: &SolidRegion) -> MeshConfig {
        match region.layer.as_ref().and_then(|layer| self.per_layer.get(layer)) {
            Some(&LayerMesh { lateral_cell, z_cell }) => MeshConfig { lateral_cell, z_cell },
            None => self.default,
        }
    }
}

/// Room for the nodes and elements of a mesh: the lists that a call is lent are this long.
#[derive(Debug, Clone, Copy, Default, PartialEq, Eq)]
pub struct Room {
    pub nodes: usize,
    pub elements: usize,
}

impl Room {
    /// Enough for a region: of a box exactly what its cells take, of a prism the most that its points can take. None where
    /// the region is turned down anyway.
    pub fn for_region(region: &SolidRegion, cfg: &MeshConfig) -> Room {
        match region.solid {
            Solid::Box { min_x, min_y, max_x, max_y, z_bottom, z_top } => {
                Room::for_cells([max_x - min_x, max_y - min_y, z_top - z_bottom], cfg)
            }
            Solid::Prism { ref footprint, .. } => Room::for_points(footprint.len()),
        }
    }

    /// Enough for all regions of a model, each with its cell sizes, and no more than a mesh may have.
    pub fn for_model(model: &SolidModel, cfg: impl Fn(&SolidRegion) -> MeshConfig) -> Room {
        model.regions.iter().map(|region| Room::for_region(region, &cfg(region))).fold(Room::default(), |all, one| Room {
            nodes: (all.nodes + one.nodes).min(limits::NODES),
            elements: (all.elements + one.elements).min(limits::ELEMENTS),
        })
    }

    /// A box of these extents. If a cell count is refused, so is the box; if a mesh cannot be so large, it is refused with 12.
    fn for_cells([x, y, z]: [f64; 3], cfg: &MeshConfig) -> Room {
        let cells = [(x, cfg.lateral_cell), (y, cfg.lateral_cell), (z, cfg.z_cell)];
        match cells.map(|(extent, cell)| calls::cell_count(extent, cell)) {
            [Ok(x), Ok(y), Ok(z)] => {
                let room = Room { nodes: (x + 1) * (y + 1) * (z + 1), elements: x * y * z };
                if room.nodes <= limits::NODES { room } else { Room::default() }
            }
            _ => Room::default(),
        }
    }

    /// A prism on n points: the scanline has at most n - 1 bands, and each at most n / 2 quads of eight nodes and two prisms.
    /// A clipped prism has 2n nodes and n - 2 elements, which is less.
    fn for_points(n: usize) -> Room {
        if n < 3 || n > limits::RING_POINTS {
            return Room::default();
        }
        let quads = (n - 1) * (n / 2);
        Room { nodes: 8 * quads, elements: 2 * quads }
    }
}

/// Refused: a box with 15 for its material, 1, 5, 1 for a cell size, 6, 7, 12; a prism with 15, 2, 1, 8, 3, 9, 10, 1, 11, 1.
pub fn mesh_region(region: &SolidRegion, cfg: &MeshConfig) -> Result<Mesh, Refusal> {
    let mut lists = MeshLists::room(Room::for_region(region, cfg));
    match region.solid {
        Solid::Box { min_x, min_y, max_x, max_y, z_bottom, z_top } => {
            let sides = Bbox { min_x, min_y, max_x, max_y };
            calls::mesh_box(sides, z_bottom, z_top, region.material_id, cfg, &mut lists)?;
        }
        Solid::Prism { ref footprint, z_bottom, z_top } => {
            calls::mesh_prism(&Points::of(footprint), z_bottom, z_top, region.material_id, &mut lists)?;
        }
    }
    Ok(lists.mesh(|_| Labels::from(region)))
}

/// A region of a model that was turned down. It prints as the original's line.
#[derive(Debug, Clone, PartialEq, Eq)]
pub struct Diagnostic {
    /// The region's place in the model.
    pub region: usize,
    /// The name of its material, `?` if it has none.
    pub material: String,
    pub refusal: Refusal,
}

impl fmt::Display for Diagnostic {
    fn fmt(&self, f: &mut fmt::Formatter<'_>) -> fmt::Result {
        write!(f, "region {} ({}) failed: {}", self.region, self.material, self.refusal)
    }
}

impl From<Diagnostic> for String {
    fn from(diagnostic: Diagnostic) -> String {
        diagnostic.to_string()
    }
}

/// The regions that are not turned down, and why the others are. Refused: 2 for the regions or their points.
pub fn mesh_model(model: &SolidModel, cfg: &MeshConfig) -> Result<(Mesh, Vec<Diagnostic>), Refusal> {
    let mut lists = MeshLists::room(Room::for_model(model, |_| *cfg));
    let mut diagnostics = vec![0; model.regions.len()];
    let (rows, points) = Rows::of(&model.regions, |region| region.material_id);
    calls::mesh_model(&rows, &points, cfg, &mut lists, &mut diagnostics)?;
    Ok(meshed(model, &lists, &diagnostics))
}

/// Cell sizes by number, as a call is lent them.
#[derive(Default)]
pub(crate) struct Overrides {
    pub materials: Vec<u32>,
    pub laterals: Vec<f64>,
    pub verticals: Vec<f64>,
}

/// The same with cell sizes by the region's layer. Refused: 2 for the regions or their points, 15 for more than 768 layers
/// that have cell sizes and regions.
pub fn mesh_model_with_options(model: &SolidModel, opts: &MeshOptions) -> Result<(Mesh, Vec<Diagnostic>), Refusal> {
    let mut lists = MeshLists::room(Room::for_model(model, |region| opts.for_region(region)));
    let mut diagnostics = vec![0; model.regions.len()];
    // The call goes by material, and the original by layer, which need not agree. The call looks at a material for its cell
    // sizes, and whether there is such a one: so a layer with cell sizes has a number of its own here, another region is
    // unassigned, and a material that is none stays.
    let mut overrides = Overrides::default();
    let mut numbers: BTreeMap<&str, u32> = BTreeMap::new();
    for layer in model.regions.iter().filter_map(|region| region.layer.as_deref()) {
        if let (Some(sizes), false) = (opts.per_layer.get(layer), numbers.contains_key(layer)) {
            let number = narrow(numbers.len() + 1);
            numbers.insert(layer, number);
            overrides.materials.push(number);
            overrides.laterals.push(sizes.lateral_cell);
            overrides.verticals.push(sizes.z_cell);
        }
    }
    let (rows, points) = Rows::of(&model.regions, |region| match region.layer.as_deref() {
        _ if region.material_id > limits::MATERIAL => region.material_id,
        Some(layer) => numbers.get(layer).copied().unwrap_or(0),
        None => 0,
    });
    calls::mesh_model_with_options(&rows, &points, &overrides, &opts.default, &mut lists, &mut diagnostics)?;
    Ok(meshed(model, &lists, &diagnostics))
}

fn meshed(model: &SolidModel, lists: &MeshLists, diagnostics: &[u32]) -> (Mesh, Vec<Diagnostic>) {
    let mesh = lists.mesh(|region| Labels::from(&model.regions[region]));
    let refused = diagnostics.iter().enumerate().filter_map(|(region, &number)| {
        let material = model.material_name(model.regions[region].material_id).unwrap_or("?").to_string();
        Refusal::from_number(number).map(|refusal| Diagnostic { region, material, refusal })
    });
    (mesh, refused.collect())
}

/// Refused: 2, 1, 15 for an element whose nodes are not as many as its kind has, 13.
pub fn weld_nodes(mesh: &Mesh, tol: f64) -> Result<Mesh, Refusal> {
    let mut welded = MeshLists::room(Room { nodes: mesh.nodes.len(), elements: mesh.elements.len() });
    calls::weld_nodes(&MeshLists::of(mesh), tol, &mut welded)?;
    Ok(welded.mesh(|element| Labels::from(&mesh.elements[element])))
}

/// Refused: 2, 1, 15 for an element whose nodes are not as many as its kind has, 13.
pub fn mesh_volume(mesh: &Mesh) -> Result<f64, Refusal> {
    calls::mesh_volume(&MeshLists::of(mesh))
}

/// The cleaned ring, and triangles of places in it. Refused: 2, 1, 3, 4.
pub fn triangulate_polygon(points: &[Point]) -> Result<(Vec<Point>, Vec<[usize; 3]>), Refusal> {
    // Cleaning adds no point, and a ring of n has n - 2 triangles.
    let mut ring = Points::room(points.len());
    let mut corners = vec![0; 3 * points.len()];
    let (vertices, triangles) = calls::triangulate_polygon(&Points::of(points), &mut ring, &mut corners)?;
    let triangle = |three: &[u32]| [three[0], three[1], three[2]].map(|corner| corner as usize);
    Ok((ring.part(0, vertices), corners.chunks(3).take(triangles).map(triangle).collect()))
}

// ---- calls that are private in the original

/// The ring without points that are within 2^-52 of the one before, or a last one of the first. Refused: 2, 1.
pub fn dedup_ring(points: &[Point]) -> Result<Vec<Point>, Refusal> {
    let mut ring = Points::room(points.len());
    let left = calls::dedup_ring(&Points::of(points), &mut ring)?;
    Ok(ring.part(0, left))
}

/// The cells on an axis. Refused: 1, 5, 6, 7.
pub fn cell_count(extent: f64, cell: f64) -> Result<usize, Refusal> {
    calls::cell_count(extent, cell)
}

/// The coordinate of this place on an axis. Refused: 1, 5, 6, 7, 15 for the place.
pub fn axis_coordinate(min: f64, max: f64, cell: f64, place: usize) -> Result<f64, Refusal> {
    calls::axis_coordinate(min, max, cell, place)
}
