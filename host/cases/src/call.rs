//! The calls compared: their numbers, names, blocks, refusals and outputs.
use crate::blocks::Kind;
use crate::refusals;

/// Each call by its number in the recorded answers; those from 22 to 39 are not recorded.
#[derive(Clone, Copy, PartialEq, Debug)]
#[repr(u64)]
pub enum Call {
    PolygonSignedArea = 1,
    PolygonArea,
    IsCcw,
    IsAxisAlignedRectangle,
    BboxFromPoints,
    BoxVolume,
    PrismVolume,
    BoxFootprintBbox,
    PrismFootprintBbox,
    Sqrt,
    Abs,
    CeilCapped,
    NearestCapped,
    CheckBlocks,
    LookUp,
    PhysicalName,
    LayerName,
    StackLayer,
    ViaLayers,
    MaterialNumber,
    IsMarker,
    CoordinateInRange,
    ExtentInRange,
    FigureInRange,
    BboxEmpty,
    BboxIsEmpty,
    BboxExtendPoint,
    BboxExtend,
    BboxUnion,
    BboxWidth,
    BboxHeight,
    BboxCenter,
    BoxZBottom,
    BoxZTop,
    PrismZBottom,
    PrismZTop,
    BoxRegionVolume,
    PrismRegionVolume,
    CopyPhysicalName,
    ExtrudePolygon,
    ExtrudeBox,
    TotalVolume,
    CellCount = 44,
    AxisCoordinate,
}

use Call::*;

pub const CALLS: [Call; 44] = [
    PolygonSignedArea, PolygonArea, IsCcw, IsAxisAlignedRectangle, BboxFromPoints,
    BoxVolume, PrismVolume, BoxFootprintBbox, PrismFootprintBbox,
    Sqrt, Abs, CeilCapped, NearestCapped,
    CheckBlocks, LookUp, PhysicalName, LayerName, StackLayer, ViaLayers, MaterialNumber, IsMarker,
    CoordinateInRange, ExtentInRange, FigureInRange,
    BboxEmpty, BboxIsEmpty, BboxExtendPoint, BboxExtend, BboxUnion, BboxWidth, BboxHeight, BboxCenter,
    BoxZBottom, BoxZTop, PrismZBottom, PrismZTop, BoxRegionVolume, PrismRegionVolume,
    CopyPhysicalName,
    ExtrudePolygon, ExtrudeBox, TotalVolume,
    CellCount, AxisCoordinate,
];

/// The calls that are recorded: those on numbers, and those on name blocks and names.
pub const RECORDED_NUMBERS: std::ops::Range<usize> = 0..13;
pub const RECORDED_BLOCKS: std::ops::Range<usize> = 13..21;

/// Those on regions, and the number of `assemble_stack`.
pub const RECORDED_REGIONS: [Call; 3] = [ExtrudePolygon, ExtrudeBox, TotalVolume];
pub const RECORDED_STACKS: u64 = 43;

/// Those on axes, and the numbers of `mesh_box` and `mesh_prism`.
pub const RECORDED_AXES: [Call; 2] = [CellCount, AxisCoordinate];
pub const RECORDED_BOXES: u64 = 46;
pub const RECORDED_PRISMS: u64 = 47;

/// One value of an accepted call.
#[derive(Clone, Copy, PartialEq)]
pub enum Output {
    Float,
    /// One byte, 0 or 1.
    Truth,
    /// One byte.
    Kind,
    /// A u32.
    Number,
    /// Eight bytes.
    Whole,
}

impl Call {
    pub fn number(self) -> u64 {
        self as u64
    }

    /// The exported name without `openrdson_`.
    pub fn name(self) -> &'static str {
        match self {
            PolygonSignedArea => "polygon_signed_area",
            PolygonArea => "polygon_area",
            IsCcw => "is_ccw",
            IsAxisAlignedRectangle => "is_axis_aligned_rectangle",
            BboxFromPoints => "bbox_from_points",
            BoxVolume => "box_volume",
            PrismVolume => "prism_volume",
            BoxFootprintBbox => "box_footprint_bbox",
            PrismFootprintBbox => "prism_footprint_bbox",
            Sqrt => "sqrt",
            Abs => "abs",
            CeilCapped => "ceil_capped",
            NearestCapped => "nearest_capped",
            CheckBlocks => "check_blocks",
            LookUp => "look_up",
            PhysicalName => "physical_name",
            LayerName => "layer_name",
            StackLayer => "stack_layer",
            ViaLayers => "via_layers",
            MaterialNumber => "material_number",
            IsMarker => "is_marker",
            CoordinateInRange => "coordinate_in_range",
            ExtentInRange => "extent_in_range",
            FigureInRange => "figure_in_range",
            BboxEmpty => "bbox_empty",
            BboxIsEmpty => "bbox_is_empty",
            BboxExtendPoint => "bbox_extend_point",
            BboxExtend => "bbox_extend",
            BboxUnion => "bbox_union",
            BboxWidth => "bbox_width",
            BboxHeight => "bbox_height",
            BboxCenter => "bbox_center",
            BoxZBottom => "box_z_bottom",
            BoxZTop => "box_z_top",
            PrismZBottom => "prism_z_bottom",
            PrismZTop => "prism_z_top",
            BoxRegionVolume => "box_region_volume",
            PrismRegionVolume => "prism_region_volume",
            CopyPhysicalName => "copy_physical_name",
            ExtrudePolygon => "extrude_polygon",
            ExtrudeBox => "extrude_box",
            TotalVolume => "total_volume",
            CellCount => "cell_count",
            AxisCoordinate => "axis_coordinate",
        }
    }

    /// The blocks it is lent, in order.
    pub fn blocks(self) -> &'static [Kind] {
        match self {
            CheckBlocks => &[Kind::LayerNames, Kind::Map, Kind::Map, Kind::Stack, Kind::Stack, Kind::Vias],
            LookUp | PhysicalName | CopyPhysicalName => &[Kind::Map, Kind::Map],
            LayerName => &[Kind::LayerNames],
            StackLayer => &[Kind::Stack],
            ViaLayers => &[Kind::Vias],
            MaterialNumber => &[Kind::Stack, Kind::Stack, Kind::Vias],
            _ => &[],
        }
    }

    /// Whether a name is asked for, after the blocks.
    pub fn asks_name(self) -> bool {
        match self {
            LookUp | PhysicalName | CopyPhysicalName | StackLayer | ViaLayers | MaterialNumber | IsMarker => true,
            _ => false,
        }
    }

    /// The refusals that it has, in the order in which they are tried.
    pub fn refusals(self) -> &'static [u32] {
        refusals::of(self.name())
    }

    /// So many of its parameters are floats; those after them are whole numbers.
    pub fn floats(self) -> usize {
        match self {
            LayerName | CopyPhysicalName => 0,
            PrismVolume | PrismFootprintBbox | PrismRegionVolume | PrismZBottom | PrismZTop => 2,
            AxisCoordinate => 3,
            _ => 8,
        }
    }

    /// The kinds of answers that are counted; each must be drawn.
    pub fn kinds(self) -> &'static [&'static str] {
        match self {
            CheckBlocks => &["fine", "a conductor's figure", "a diffusion's figure"],
            PhysicalName => &["none", "conducting", "via"],
            LayerName | CopyPhysicalName => &["none", "found"],
            MaterialNumber => &["none", "conductor", "diffusion", "via"],
            call if call.gives() == [Output::Truth] => &["false", "true"],
            StackLayer | ViaLayers => &["none", "found"],
            ExtrudePolygon => &["box", "prism"],
            TotalVolume => &["no region", "regions"],
            CellCount => &["one", "more", "4,096"],
            AxisCoordinate => &["repeated", "last", "first of -0", "first", "between"],
            _ => &[],
        }
    }

    /// The values it gives, in order.
    pub fn gives(self) -> &'static [Output] {
        use Output::*;
        match self {
            IsCcw | IsAxisAlignedRectangle | BboxIsEmpty | IsMarker | LookUp => &[Truth],
            CoordinateInRange | ExtentInRange | FigureInRange => &[Truth],
            CeilCapped | NearestCapped | CellCount => &[Whole],
            BboxFromPoints | BoxFootprintBbox | PrismFootprintBbox => &[Float; 4],
            BboxEmpty | BboxExtendPoint | BboxExtend | BboxUnion => &[Float; 4],
            BboxCenter => &[Float; 2],
            CheckBlocks => &[],
            PhysicalName => &[Number, Whole, Whole],
            // The length, then the bytes of the copy.
            CopyPhysicalName => &[Whole; 6],
            LayerName => &[Whole, Whole],
            StackLayer => &[Truth, Truth, Float, Truth, Float],
            ViaLayers => &[Truth, Whole, Whole, Whole, Whole],
            MaterialNumber => &[Number],
            // A row of a region list.
            ExtrudePolygon | ExtrudeBox => {
                &[Kind, Float, Float, Float, Float, Float, Float, Number, Number, Number, Number, Number]
            }
            _ => &[Float],
        }
    }
}
