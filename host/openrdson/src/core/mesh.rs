//! Meshes.
use crate::core::geometry::Point;
use std::collections::BTreeMap;

#[derive(Debug, Clone, Copy, PartialEq, Eq)]
pub enum ElementType {
    Tet,
    Hex,
    Prism,
    Pyramid,
}

impl ElementType {
    pub const ALL: [ElementType; 4] = [ElementType::Tet, ElementType::Hex, ElementType::Prism, ElementType::Pyramid];

    /// The number that stands for the kind in a list.
    pub fn number(self) -> u8 {
        self as u8
    }

    pub fn node_count(self) -> usize {
        match self {
            ElementType::Tet => 4,
            ElementType::Hex => 8,
            ElementType::Prism => 6,
            ElementType::Pyramid => 5,
        }
    }
}

#[derive(Debug, Clone, PartialEq)]
pub struct Element {
    pub kind: ElementType,
    /// Places in [`Mesh::nodes`].
    pub nodes: Vec<u32>,
    pub material_id: u32,
    pub net: Option<String>,
    pub layer: Option<String>,
    pub device_ref: Option<String>,
    pub source_polygon: Option<usize>,
}

#[derive(Debug, Clone, Default)]
pub struct Mesh {
    pub nodes: Vec<Point3>,
    pub elements: Vec<Element>,
    /// No call looks at sets. A mesh that is made has none, and neither has a welded one, as in the original.
    pub sets: BTreeMap<String, Vec<u32>>,
}

/// In meters.
#[derive(Debug, Clone, Copy, PartialEq)]
pub struct Point3 {
    pub x: f64,
    pub y: f64,
    pub z: f64,
}

impl Point3 {
    pub const fn new(x: f64, y: f64, z: f64) -> Point3 {
        Point3 { x, y, z }
    }
}

impl From<Point> for Point3 {
    fn from(p: Point) -> Point3 {
        Point3::new(p.x, p.y, 0.0)
    }
}
