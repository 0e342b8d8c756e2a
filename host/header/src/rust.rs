//! The sources as Rust's foreign functions: the text of host/openrdson/src/calls/raw.rs.
use crate::source::{Function, Kind};

const HEAD: &str = "\
//! The C functions of crates/c_api, all of them. Written by `host/header --bindings`, and held to it.
pub use crate::core::geometry::{Bbox, Point};

extern \"C\" {
";

pub fn bindings(functions: &[Function]) -> String {
    let mut text = HEAD.to_string();
    for function in functions {
        text += &format!("    pub fn {}(", function.name);
        for parameter in &function.parameters {
            let name = &parameter.name;
            text += &match &parameter.kind {
                Kind::Value(of) => format!("\n        {name}: {of},"),
                Kind::Out(of) => format!("\n        {name}: *mut {of},"),
                Kind::Read(of) => format!("\n        {name}: *const {of}, {name}_len: usize,"),
                Kind::Write(of) => format!("\n        {name}: *mut {of}, {name}_len: usize,"),
            };
        }
        let end = if function.parameters.is_empty() { "" } else { "\n    " };
        text += &format!("{end}) -> {};\n", function.gives);
    }
    text + "}\n"
}
