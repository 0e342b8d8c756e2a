//! The mesh step of OpenRdson, proved, in the shapes of the original: a program of the original changes its `use` lines.
//!
//! | The original | Here |
//! |---|---|
//! | `openrdson_core::{geometry, layout, mesh, tech}` | `openrdson::core::{geometry, layout, mesh, tech}` |
//! | `geometry` | `openrdson::geometry` |
//! | `meshing` | `openrdson::meshing` |
//!
//! or all of it at once, `use openrdson::*`. A call that can be refused here and not in the original is a `Result`,
//! so that it gets a `?`; a [`Refusal`] becomes a `String` by itself where the original's texts were. Diagnostics
//! of a model are a struct that prints as the original's lines.
//!
//! The work is done by the C functions of crates/c_api, to which this crate lends lists: it lays a program's types out as
//! lists, sizes what is written ([`meshing::Room`]) and reads it back. The labels of a region (net, layer, device) stay
//! on this side, and go to the elements by the region's number.
#![deny(unsafe_code)]

mod calls;
pub mod core;
pub mod geometry;
mod lists;
pub mod meshing;
mod refusal;

/// The C functions themselves, `unsafe`, for host/rattle.
#[doc(hidden)]
pub use calls::raw;

pub use crate::core::geometry::*;
pub use crate::core::layout::*;
pub use crate::core::mesh::*;
pub use crate::core::tech::*;
pub use crate::geometry::*;
pub use crate::meshing::*;
pub use refusal::Refusal;

/// How much may be lent and meshed; past a limit a call is refused.
pub mod limits {
    pub const RING_POINTS: usize = 512;
    pub const POLYGONS: usize = 4096;
    pub const REGIONS: usize = 4096;
    pub const OVERRIDES: usize = 4096;
    pub const POINTS: usize = 2_097_152;
    pub const NODES: usize = 1_048_576;
    pub const ELEMENTS: usize = 1_048_576;
    pub const CELLS: usize = 4096;
    pub const MATERIAL: u32 = 768;
}
