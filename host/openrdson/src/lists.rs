//! What is lent: a program's types laid out as parallel lists, and read back from them.
use crate::core::geometry::{Point, Solid, SolidRegion};
use crate::core::mesh::{Element, ElementType, Mesh, Point3};
use crate::meshing::Room;

/// What stands in a node place that is not used.
const UNUSED: u32 = u32::MAX;

/// The polygon of a region that came from none.
const NO_POLYGON: u32 = u32::MAX;

/// The kind of an element whose nodes are not as many as its kind has, so that it is turned down with 15.
const NO_KIND: u8 = u8::MAX;

/// The nearest u32 of a number; the largest is above every limit.
pub fn narrow(number: usize) -> u32 {
    u32::try_from(number).unwrap_or(u32::MAX)
}

#[derive(Default)]
pub struct Points {
    pub xs: Vec<f64>,
    pub ys: Vec<f64>,
}

impl Points {
    pub fn of(points: &[Point]) -> Points {
        let mut lists = Points::default();
        lists.add(points);
        lists
    }

    pub fn room(points: usize) -> Points {
        Points { xs: vec![0.0; points], ys: vec![0.0; points] }
    }

    /// Adds a part, and gives its start and count.
    pub fn add(&mut self, points: &[Point]) -> (u32, u32) {
        let start = narrow(self.xs.len());
        self.xs.extend(points.iter().map(|p| p.x));
        self.ys.extend(points.iter().map(|p| p.y));
        (start, narrow(points.len()))
    }

    pub fn part(&self, start: usize, count: usize) -> Vec<Point> {
        let part = start..start + count;
        self.xs[part.clone()].iter().zip(&self.ys[part]).map(|(&x, &y)| Point { x, y }).collect()
    }
}

/// A row of a region list.
#[derive(Default)]
pub struct Row {
    pub kind: u8,
    pub min_x: f64,
    pub min_y: f64,
    pub max_x: f64,
    pub max_y: f64,
    pub z_bottom: f64,
    pub z_top: f64,
    pub start: u32,
    pub count: u32,
    pub material: u32,
    pub net: u32,
    pub polygon: u32,
}

impl Row {
    /// The solid, whose points are in these lists.
    pub fn solid(&self, points: &Points) -> Solid {
        let Row { min_x, min_y, max_x, max_y, z_bottom, z_top, .. } = *self;
        if self.kind == 0 {
            Solid::Box { min_x, min_y, max_x, max_y, z_bottom, z_top }
        } else {
            Solid::Prism { footprint: points.part(self.start as usize, self.count as usize), z_bottom, z_top }
        }
    }

    pub fn source_polygon(&self) -> Option<usize> {
        (self.polygon != NO_POLYGON).then_some(self.polygon as usize)
    }
}

/// A region list.
#[derive(Default)]
pub struct Rows {
    pub kinds: Vec<u8>,
    pub min_x: Vec<f64>,
    pub min_y: Vec<f64>,
    pub max_x: Vec<f64>,
    pub max_y: Vec<f64>,
    pub z_bottom: Vec<f64>,
    pub z_top: Vec<f64>,
    pub starts: Vec<u32>,
    pub counts: Vec<u32>,
    pub materials: Vec<u32>,
    pub nets: Vec<u32>,
    pub polygons: Vec<u32>,
}

impl Rows {
    /// The regions, and the points of their prisms. A net is a string, which no call needs.
    pub fn of(regions: &[SolidRegion], material: impl Fn(&SolidRegion) -> u32) -> (Rows, Points) {
        let (mut rows, mut points) = (Rows::default(), Points::default());
        for region in regions {
            let mut row = match region.solid {
                Solid::Box { min_x, min_y, max_x, max_y, z_bottom, z_top } => {
                    Row { kind: 0, min_x, min_y, max_x, max_y, z_bottom, z_top, ..Row::default() }
                }
                Solid::Prism { ref footprint, z_bottom, z_top } => {
                    let (start, count) = points.add(footprint);
                    Row { kind: 1, z_bottom, z_top, start, count, ..Row::default() }
                }
            };
            row.material = material(region);
            row.polygon = region.source_polygon.map_or(NO_POLYGON, narrow);
            rows.push(row);
        }
        (rows, points)
    }

    pub fn room(regions: usize) -> Rows {
        let mut rows = Rows::default();
        (0..regions).for_each(|_| rows.push(Row::default()));
        rows
    }

    fn push(&mut self, row: Row) {
        self.kinds.push(row.kind);
        self.min_x.push(row.min_x);
        self.min_y.push(row.min_y);
        self.max_x.push(row.max_x);
        self.max_y.push(row.max_y);
        self.z_bottom.push(row.z_bottom);
        self.z_top.push(row.z_top);
        self.starts.push(row.start);
        self.counts.push(row.count);
        self.materials.push(row.material);
        self.nets.push(row.net);
        self.polygons.push(row.polygon);
    }

    pub fn row(&self, place: usize) -> Row {
        Row {
            kind: self.kinds[place],
            min_x: self.min_x[place],
            min_y: self.min_y[place],
            max_x: self.max_x[place],
            max_y: self.max_y[place],
            z_bottom: self.z_bottom[place],
            z_top: self.z_top[place],
            start: self.starts[place],
            count: self.counts[place],
            material: self.materials[place],
            net: self.nets[place],
            polygon: self.polygons[place],
        }
    }
}

/// The lists of a mesh, and how many nodes and elements it has.
#[derive(Default)]
pub struct MeshLists {
    pub xs: Vec<f64>,
    pub ys: Vec<f64>,
    pub zs: Vec<f64>,
    pub kinds: Vec<u8>,
    pub places: Vec<u32>,
    pub regions: Vec<u32>,
    pub nodes: usize,
    pub elements: usize,
}

impl MeshLists {
    /// An empty mesh with this room. Zeros are asked of the system, which gives them where they are written.
    pub fn room(room: Room) -> MeshLists {
        MeshLists {
            xs: vec![0.0; room.nodes],
            ys: vec![0.0; room.nodes],
            zs: vec![0.0; room.nodes],
            kinds: vec![0; room.elements],
            places: vec![0; 8 * room.elements],
            regions: vec![0; room.elements],
            nodes: 0,
            elements: 0,
        }
    }

    /// A whole mesh; the region of an element is its place.
    pub fn of(mesh: &Mesh) -> MeshLists {
        let mut lists = MeshLists {
            xs: mesh.nodes.iter().map(|p| p.x).collect(),
            ys: mesh.nodes.iter().map(|p| p.y).collect(),
            zs: mesh.nodes.iter().map(|p| p.z).collect(),
            nodes: mesh.nodes.len(),
            elements: mesh.elements.len(),
            ..MeshLists::default()
        };
        for (place, element) in mesh.elements.iter().enumerate() {
            let count = element.kind.node_count();
            let whole = element.nodes.len() == count;
            lists.kinds.push(if whole { element.kind.number() } else { NO_KIND });
            lists.places.extend((0..8).map(|i| if whole && i < count { element.nodes[i] } else { UNUSED }));
            lists.regions.push(narrow(place));
        }
        lists
    }

    /// The mesh, whose elements carry what `labels` gives for the region's number.
    pub fn mesh(&self, labels: impl Fn(usize) -> Labels) -> Mesh {
        let node = |i: usize| Point3::new(self.xs[i], self.ys[i], self.zs[i]);
        let element = |i: usize| {
            let kind = ElementType::ALL[self.kinds[i] as usize];
            let nodes = self.places[8 * i..8 * i + kind.node_count()].to_vec();
            let Labels { material_id, net, layer, device_ref, source_polygon } = labels(self.regions[i] as usize);
            Element { kind, nodes, material_id, net, layer, device_ref, source_polygon }
        };
        Mesh {
            nodes: (0..self.nodes).map(node).collect(),
            elements: (0..self.elements).map(element).collect(),
            sets: Default::default(),
        }
    }
}

/// What an element carries of its region.
pub struct Labels {
    material_id: u32,
    net: Option<String>,
    layer: Option<String>,
    device_ref: Option<String>,
    source_polygon: Option<usize>,
}

impl From<&SolidRegion> for Labels {
    fn from(region: &SolidRegion) -> Labels {
        Labels {
            material_id: region.material_id,
            net: region.net.clone(),
            layer: region.layer.clone(),
            device_ref: region.device_ref.clone(),
            source_polygon: region.source_polygon,
        }
    }
}

impl From<&Element> for Labels {
    fn from(element: &Element) -> Labels {
        Labels {
            material_id: element.material_id,
            net: element.net.clone(),
            layer: element.layer.clone(),
            device_ref: element.device_ref.clone(),
            source_polygon: element.source_polygon,
        }
    }
}
