//! Points, bounding boxes, solids and regions.
use crate::calls;
use crate::lists::Points;
use crate::Refusal;

/// In meters.
#[derive(Debug, Clone, Copy, PartialEq)]
#[repr(C)]
pub struct Point {
    pub x: f64,
    pub y: f64,
}

impl Point {
    pub const fn new(x: f64, y: f64) -> Point {
        Point { x, y }
    }
}

/// A GDSII layer and datatype; stacking reads the layer.
#[derive(Debug, Clone, Copy, PartialEq, Eq, Hash, PartialOrd, Ord)]
pub struct LayerKey {
    pub layer: i16,
    pub datatype: i16,
}

impl LayerKey {
    pub const fn new(layer: i16, datatype: i16) -> LayerKey {
        LayerKey { layer, datatype }
    }
}

impl std::fmt::Display for LayerKey {
    fn fmt(&self, f: &mut std::fmt::Formatter<'_>) -> std::fmt::Result {
        write!(f, "{}:{}", self.layer, self.datatype)
    }
}

#[derive(Debug, Clone, Copy, PartialEq)]
#[repr(C)]
pub struct Bbox {
    pub min_x: f64,
    pub min_y: f64,
    pub max_x: f64,
    pub max_y: f64,
}

impl Default for Bbox {
    fn default() -> Bbox {
        Bbox::empty()
    }
}

impl Bbox {
    /// The empty box: extended by a point, it is that point's box.
    pub fn empty() -> Bbox {
        calls::bbox_empty()
    }

    pub fn is_empty(&self) -> bool {
        calls::bbox_is_empty(*self)
    }

    /// Refused: 2, 1.
    pub fn from_points(points: &[Point]) -> Result<Bbox, Refusal> {
        calls::bbox_from_points(&Points::of(points))
    }

    pub fn extend_point(&mut self, p: Point) {
        *self = calls::bbox_extend_point(*self, p);
    }

    pub fn extend(&mut self, other: &Bbox) {
        *self = calls::bbox_extend(*self, *other);
    }

    pub fn union(&self, other: &Bbox) -> Bbox {
        calls::bbox_union(*self, *other)
    }

    pub fn width(&self) -> f64 {
        calls::bbox_width(*self)
    }

    pub fn height(&self) -> f64 {
        calls::bbox_height(*self)
    }

    pub fn center(&self) -> Point {
        calls::bbox_center(*self)
    }
}

#[derive(Debug, Clone, PartialEq)]
pub enum Solid {
    Box { min_x: f64, min_y: f64, max_x: f64, max_y: f64, z_bottom: f64, z_top: f64 },
    Prism { footprint: Vec<Point>, z_bottom: f64, z_top: f64 },
}

impl Solid {
    /// Refused: 2 for a prism's points, 1.
    pub fn volume(&self) -> Result<f64, Refusal> {
        match *self {
            Solid::Box { min_x, min_y, max_x, max_y, z_bottom, z_top } => {
                calls::box_volume(Bbox { min_x, min_y, max_x, max_y }, z_bottom, z_top)
            }
            Solid::Prism { ref footprint, z_bottom, z_top } => calls::prism_volume(&Points::of(footprint), z_bottom, z_top),
        }
    }

    pub fn z_bottom(&self) -> f64 {
        match *self {
            Solid::Box { z_bottom, .. } | Solid::Prism { z_bottom, .. } => z_bottom,
        }
    }

    pub fn z_top(&self) -> f64 {
        match *self {
            Solid::Box { z_top, .. } | Solid::Prism { z_top, .. } => z_top,
        }
    }

    /// Refused: 2 for a prism's points, 1.
    pub fn footprint_bbox(&self) -> Result<Bbox, Refusal> {
        match *self {
            Solid::Box { min_x, min_y, max_x, max_y, z_bottom, z_top } => {
                calls::box_footprint_bbox(Bbox { min_x, min_y, max_x, max_y }, z_bottom, z_top)
            }
            Solid::Prism { ref footprint, z_bottom, z_top } => {
                calls::prism_footprint_bbox(&Points::of(footprint), z_bottom, z_top)
            }
        }
    }
}

/// A solid with its material and its labels, which its elements carry.
#[derive(Debug, Clone, PartialEq)]
pub struct SolidRegion {
    pub material_id: u32,
    pub net: Option<String>,
    pub layer: Option<String>,
    pub device_ref: Option<String>,
    /// The place of the polygon that it came from.
    pub source_polygon: Option<usize>,
    pub solid: Solid,
}

impl SolidRegion {
    /// Refused: 2 for a prism's points, 1.
    pub fn volume(&self) -> Result<f64, Refusal> {
        self.solid.volume()
    }
}

#[derive(Debug, Clone, Default)]
pub struct SolidModel {
    pub regions: Vec<SolidRegion>,
    /// The name of material 1 first; material 0 has none.
    pub material_names: Vec<String>,
}

impl SolidModel {
    /// Refused: 2, then region by region 15 for its material, 2, 1.
    pub fn total_volume(&self) -> Result<f64, Refusal> {
        crate::geometry::total_volume(&self.regions)
    }

    pub fn material_name(&self, id: u32) -> Option<&str> {
        let place = (id as usize).checked_sub(1)?;
        self.material_names.get(place).map(String::as_str)
    }
}

/// Refused: 2, 1.
pub fn is_axis_aligned_rectangle(points: &[Point]) -> Result<bool, Refusal> {
    calls::is_axis_aligned_rectangle(&Points::of(points))
}

/// Above zero counter-clockwise. Refused: 2, 1.
pub fn polygon_signed_area(points: &[Point]) -> Result<f64, Refusal> {
    calls::polygon_signed_area(&Points::of(points))
}

/// Refused: 2, 1.
pub fn polygon_area(points: &[Point]) -> Result<f64, Refusal> {
    calls::polygon_area(&Points::of(points))
}

/// Refused: 2, 1.
pub fn is_ccw(points: &[Point]) -> Result<bool, Refusal> {
    calls::is_ccw(&Points::of(points))
}
