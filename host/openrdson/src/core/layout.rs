//! The layout that stacking reads: layers, nets and points of polygons, and the layers' names. The other fields are the
//! original's, so that a program's literals stand; no call looks at them.
use crate::core::geometry::{LayerKey, Point};
use std::collections::BTreeMap;

#[derive(Debug, Clone, PartialEq)]
pub struct LayoutPolygon {
    pub layer: LayerKey,
    pub net: Option<String>,
    /// In meters.
    pub points: Vec<Point>,
    pub props: Vec<(i16, String)>,
}

#[derive(Debug, Clone, PartialEq)]
pub struct Port {
    pub name: String,
    pub id: Option<i64>,
    pub net: String,
    pub layer: String,
    pub x: f64,
    pub y: f64,
    pub direction: Option<String>,
}

#[derive(Debug, Clone, Default)]
pub struct LayoutIR {
    pub cell: String,
    pub db_unit_meters: f64,
    pub polygons: Vec<LayoutPolygon>,
    pub ports: Vec<Port>,
    /// The logical name of a layer.
    pub layer_names: BTreeMap<i16, String>,
}

impl LayoutIR {
    pub fn layer_name(&self, layer: i16) -> Option<&str> {
        self.layer_names.get(&layer).map(String::as_str)
    }
}
