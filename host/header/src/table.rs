//! The sources as a table in C, by which a program calls every function: the text of host/fuzz/calls.h.
use crate::c::type_of;
use crate::source::{Function, Kind};

const HEAD: &str = "\
/* The C functions of crates/c_api, all of them, as a table. Written by `host/header --table`, and held to it. */
";

const MOST_COLUMNS: usize = 120;

pub fn table(functions: &[Function]) -> String {
    let mut text = HEAD.to_string();
    functions.iter().for_each(|function| text += &wrapper(function));
    text += "\nstatic const struct call CALLS[] = {\n";
    functions.iter().for_each(|function| text += &row(function));
    text + "};\n"
}

/// The function on a list of arguments; its answer's bits, or the number that it gives.
fn wrapper(function: &Function) -> String {
    let argument = |(place, kind): (usize, &Kind)| match kind {
        Kind::Value(of) => match of.as_str() {
            "f64" => format!("a[{place}].number"),
            "Bbox" => format!("a[{place}].box"),
            "Point" => format!("a[{place}].point"),
            of => format!("({})a[{place}].whole", type_of(of)),
        },
        Kind::Out(_) => format!("a[{place}].list"),
        Kind::Read(_) | Kind::Write(_) => format!("a[{place}].list, a[{place}].length"),
    };
    let arguments: Vec<String> = function.parameters.iter().map(|one| &one.kind).enumerate().map(argument).collect();
    let name = &function.name;
    let call = format!("{name}({})", wrapped(&arguments));
    let unused = if arguments.is_empty() { "    (void)a;\n" } else { "" };
    let body = match function.gives.as_str() {
        "u32" | "usize" => format!("    return {call};\n"),
        of => format!("    {} answer = {call};\n    return bits(&answer, sizeof answer);\n", type_of(of)),
    };
    format!("\nstatic uint64_t call_{name}(const struct argument *a)\n{{\n{unused}{body}}}\n")
}

fn row(function: &Function) -> String {
    let parameter = |name: &str, kind: &Kind| {
        let (lent, of) = match kind {
            Kind::Value(of) => ("VALUE", of),
            Kind::Out(of) => ("OUT", of),
            Kind::Read(of) => ("READ", of),
            Kind::Write(of) => ("WRITE", of),
        };
        format!("{{\"{name}\", {lent}, {}, sizeof({})}}", of.to_uppercase(), type_of(of))
    };
    let parameters: Vec<String> = function.parameters.iter().map(|one| parameter(&one.name, &one.kind)).collect();
    let (name, count) = (&function.name, function.parameters.len());
    let parameters = if count == 0 { "{0}".to_string() } else { wrapped(&parameters) };
    format!("    {{\"{name}\", call_{name}, {}, {count}, {{{parameters}}}}},\n", function.gives.to_uppercase())
}

/// The parts in lines of their own, as many in each as fit.
fn wrapped(parts: &[String]) -> String {
    const INDENT: &str = "\n        ";
    let (mut text, mut line) = (String::new(), MOST_COLUMNS);
    for (place, part) in parts.iter().enumerate() {
        let part = if place + 1 < parts.len() { format!("{part},") } else { part.clone() };
        let begins = line + 1 + part.len() > MOST_COLUMNS;
        text += if begins { INDENT } else { " " };
        line = if begins { INDENT.len() - 1 } else { line + 1 } + part.len();
        text += &part;
    }
    text
}
