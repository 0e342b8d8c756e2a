//! The original's openrdson-core, as far as the mesh step reads it.
pub mod geometry;
pub mod layout;
pub mod mesh;
pub mod tech;
