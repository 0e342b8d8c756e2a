//! What the Rattle sources say: the exported functions, and the structs, numbers and constants that go with them.
use std::{fs, path::Path};

pub struct Parameter {
    pub name: String,
    pub kind: Kind,
}

/// How a parameter is lent: a value, a place that is written, a list that is read, a list that is written.
pub enum Kind {
    Value(String),
    Out(String),
    Read(String),
    Write(String),
}

pub struct Function {
    pub name: String,
    pub parameters: Vec<Parameter>,
    pub gives: String,
}

/// The text of a file of the repository.
pub fn text(file: &str) -> String {
    let path = Path::new(env!("CARGO_MANIFEST_DIR")).join("../..").join(file);
    fs::read_to_string(&path).unwrap_or_else(|why| panic!("{}: {why}", path.display()))
}

/// The functions that crates/c_api exports, file by file.
pub fn functions() -> Vec<Function> {
    let folder = "crates/c_api/src";
    let path = Path::new(env!("CARGO_MANIFEST_DIR")).join("../..").join(folder);
    let entries = fs::read_dir(&path).unwrap_or_else(|why| panic!("{}: {why}", path.display()));
    let mut files: Vec<String> = entries.map(|entry| entry.unwrap().file_name().into_string().unwrap()).collect();
    files.retain(|file| file.ends_with(".rt"));
    files.sort();
    let mut functions = Vec::new();
    for file in files {
        let text = text(&format!("{folder}/{file}"));
        let parts = text.split("#[unsafe(no_mangle)]").skip(1);
        functions.extend(parts.map(|part| function(part).unwrap_or_else(|| panic!("{file}: no function is read in{part}"))));
    }
    functions
}

/// The function that follows `#[unsafe(no_mangle)]`.
fn function(part: &str) -> Option<Function> {
    let (head, rest) = part.trim_start().strip_prefix("pub extern \"C\" fn ")?.split_once('(')?;
    let name = head.split('<').next()?.to_string();
    let (list, rest) = rest.split_once(')')?;
    let parameters = list.split(',').map(str::trim).filter(|one| !one.is_empty()).map(parameter).collect::<Option<_>>()?;
    let gives = rest.trim_start().strip_prefix("->")?.split_whitespace().next()?.to_string();
    Some(Function { name, parameters, gives })
}

fn parameter(one: &str) -> Option<Parameter> {
    let (name, kind) = one.split_once(':')?;
    let mut kind = kind.trim().to_string();
    if let Some((before, after)) = kind.split_once('\'') {
        kind = format!("{before}{}", after.split_once(' ')?.1);
    }
    let list = |lent: &str| lent.strip_prefix('[').and_then(|lent| lent.strip_suffix(']')).map(str::to_string);
    let kind = match (kind.strip_prefix("&mut "), kind.strip_prefix('&')) {
        (Some(lent), _) => list(lent).map_or(Kind::Out(lent.to_string()), Kind::Write),
        (None, Some(lent)) => Kind::Read(list(lent)?),
        (None, None) => Kind::Value(kind),
    };
    Some(Parameter { name: name.trim().to_string(), kind })
}

/// The fields of a struct, which must be all floats.
pub fn fields(file: &str, name: &str) -> Vec<String> {
    let text = text(file);
    let (before, rest) = text.split_once(&format!("pub struct {name} {{")).unwrap_or_else(|| panic!("{file}: no {name}"));
    let derives = before.trim_end().lines().last().unwrap_or("");
    let laid_out = before.trim_end().strip_suffix(derives).is_some_and(|before| before.ends_with("#[repr(C)]\n"));
    assert!(laid_out && derives.starts_with("#[derive("), "{file}: {name} is not laid out as C's");
    let (body, _) = rest.split_once('}').unwrap();
    let field = |one: &str| one.trim().strip_prefix("pub ").and_then(|one| one.strip_suffix(": f64")).map(str::to_string);
    body.split(',').filter(|one| !one.trim().is_empty()).map(|one| field(one).unwrap_or_else(|| panic!("{file}: {one}"))).collect()
}

/// The cases of an enum and the number of each, as its conversion gives them.
pub fn numbers(file: &str, name: &str) -> Vec<(String, u32)> {
    let text = text(file);
    let (_, rest) = text.split_once(&format!("impl From<{name}> for u")).unwrap_or_else(|| panic!("{file}: {name} has no number"));
    let (_, rest) = rest.split_once("match ").unwrap();
    let (_, rest) = rest.split_once('{').unwrap();
    let (body, _) = rest.split_once('}').unwrap();
    let case = |one: &str| {
        let (case, number) = one.trim().strip_prefix(name)?.strip_prefix("::")?.split_once(" => ")?;
        Some((case.to_string(), number.parse().ok()?))
    };
    body.split(',').filter(|one| !one.trim().is_empty()).map(|one| case(one).unwrap_or_else(|| panic!("{file}: {one}"))).collect()
}

/// The text between two others, the first place where they stand.
pub fn between(file: &str, before: &str, after: &str) -> String {
    let text = text(file);
    let (_, rest) = text.split_once(before).unwrap_or_else(|| panic!("{file}: no `{before}`"));
    rest.split_once(after).unwrap_or_else(|| panic!("{file}: no `{after}`")).0.to_string()
}
