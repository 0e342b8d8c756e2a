//! The unchanged Rust, as host/assemble.sh put it together.
pub use geometry;
pub use meshing;
pub use openrdson_core as core;
