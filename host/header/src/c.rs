//! The sources in C's words.
use crate::source::{self, Function, Kind};

pub fn type_of(rattle: &str) -> &'static str {
    match rattle {
        "bool" => "bool",
        "f64" => "double",
        "i16" => "int16_t",
        "i64" => "int64_t",
        "u8" => "uint8_t",
        "u32" => "uint32_t",
        "u64" => "uint64_t",
        "usize" => "size_t",
        "Bbox" => "openrdson_bbox",
        "Point" => "openrdson_point",
        other => panic!("no C type for {other}"),
    }
}

/// The prototype of a function, without the semicolon. A list is its first entry's address and its length.
pub fn prototype(function: &Function) -> String {
    let parameters = function.parameters.iter().map(|parameter| {
        let name = &parameter.name;
        match &parameter.kind {
            Kind::Value(of) => format!("{} {name}", type_of(of)),
            Kind::Out(of) => format!("{} *{name}", type_of(of)),
            Kind::Read(of) => format!("const {} *{name}, size_t {name}_len", type_of(of)),
            Kind::Write(of) => format!("{} *{name}, size_t {name}_len", type_of(of)),
        }
    });
    let parameters: Vec<String> = parameters.collect();
    let parameters = if parameters.is_empty() { "void".to_string() } else { parameters.join(", ") };
    format!("{} {}({parameters})", type_of(&function.gives), function.name)
}

/// What must stand in the header beside the prototypes.
pub fn others() -> Vec<String> {
    let core = "crates/openrdson_core/src";
    let mut others = vec![
        structure("openrdson_point", &source::fields(&format!("{core}/points.rt"), "Point")),
        structure("openrdson_bbox", &source::fields(&format!("{core}/bounds.rt"), "Bbox")),
        numbered("enum openrdson_refusal { OPENRDSON_ACCEPTED = 0", &source::numbers(&format!("{core}/refusals.rt"), "Refusal")),
        numbered("enum openrdson_element {", &source::numbers(&format!("{core}/mesh.rt"), "ElementType")),
    ];
    for (file, name) in [
        ("crates/openrdson_core/src/mesh.rt", "UNUSED"),
        ("crates/geometry/src/regions.rt", "NO_POLYGON"),
        ("crates/geometry/src/regions.rt", "LARGEST_MATERIAL"),
    ] {
        let number = source::between(file, &format!("pub const {name}: u32 = "), ";");
        others.push(format!("#define OPENRDSON_{name} UINT32_C({number})"));
    }
    for name in ["lateral_cell", "z_cell"] {
        let config = source::between("crates/meshing/src/cells.rt", "pub const DEFAULT: MeshConfig = MeshConfig {", "}");
        let figure = config.split_once(&format!("{name}: ")).and_then(|rest| rest.1.split_once(',')).expect("a cell size").0;
        others.push(format!("#define OPENRDSON_{} {figure}", name.to_uppercase()));
    }
    others
}

fn structure(name: &str, fields: &[String]) -> String {
    let fields: String = fields.iter().map(|field| format!("double {field}; ")).collect();
    format!("typedef struct {name} {{ {fields}}} {name};")
}

fn numbered(head: &str, cases: &[(String, u32)]) -> String {
    let first = if head.ends_with('{') { "" } else { "," };
    let cases: Vec<String> = cases.iter().map(|(case, number)| format!("OPENRDSON_{} = {number}", shouted(case))).collect();
    format!("{head}{first} {} }};", cases.join(", "))
}

/// `TooFewVertices` as TOO_FEW_VERTICES.
fn shouted(case: &str) -> String {
    let mut name = String::new();
    for letter in case.chars() {
        if letter.is_uppercase() && !name.is_empty() {
            name.push('_');
        }
        name.push(letter.to_ascii_uppercase());
    }
    name
}

/// A header without its comments.
pub fn without_comments(text: &str) -> String {
    let mut parts = text.split("/*");
    let mut plain = parts.next().unwrap_or("").to_string();
    for part in parts {
        plain.push(' ');
        plain.push_str(part.split_once("*/").expect("a comment that ends").1);
    }
    assert!(!plain.contains("//"), "comments are written /* */");
    plain
}

/// The prototypes in a header: what ends with a semicolon and has a list of parameters.
pub fn prototypes(plain: &str) -> Vec<String> {
    let lines: Vec<&str> = plain.lines().filter(|line| !line.starts_with('#')).collect();
    let text = lines.join("\n").replace("extern \"C\" {", "");
    text.split(';').filter(|one| one.contains('(')).map(spaced).collect()
}

/// The same text however it was broken into lines.
pub fn spaced(text: &str) -> String {
    let mut text = text.split_whitespace().collect::<Vec<_>>().join(" ");
    for mark in ["(", ")", ",", "*", "{", "}", ";"] {
        text = text.replace(&format!(" {mark}"), mark).replace(&format!("{mark} "), mark);
    }
    text
}
