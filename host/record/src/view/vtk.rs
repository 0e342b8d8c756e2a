//! The VTK file, byte for byte what the Rust's mesh says.
use crate::switch::Job;
use oracle::core::mesh::{Element, ElementType};

/// What is wrong with the file: the part where it first differs.
pub fn faults(job: &Job, file: &[u8]) -> Option<String> {
    let mut rest = file;
    for (name, part) in parts(job) {
        match rest.strip_prefix(part.as_slice()) {
            Some(more) => rest = more,
            None => return Some(format!("VTK: {name} differ, within {} bytes from byte {} on", part.len(), file.len() - rest.len())),
        }
    }
    (!rest.is_empty()).then(|| format!("VTK: {} bytes too many", rest.len()))
}

fn parts(job: &Job) -> Vec<(&'static str, Vec<u8>)> {
    let (nodes, elements) = (&job.mesh.nodes, &job.mesh.elements);
    let coordinates = nodes.iter().flat_map(|node| [node.x, node.y, node.z]).flat_map(|x| x.to_bits().to_be_bytes()).collect();
    let cells: Vec<Vec<u32>> = elements.iter().map(cell).collect();
    let column = |entry: &dyn Fn(&Element) -> u32| big_endian(elements.iter().map(entry));
    let n = elements.len();
    let numbers: usize = cells.iter().map(Vec::len).sum();
    let head = "# vtk DataFile Version 3.0\nembedded power switch, metres\nBINARY\nDATASET UNSTRUCTURED_GRID\n";
    let material = format!("\nCELL_DATA {n}\nSCALARS material int 1\nLOOKUP_TABLE default\n");
    vec![
        ("the first lines", head.into()),
        ("the nodes' lines", format!("POINTS {} double\n", nodes.len()).into()),
        ("coordinates", coordinates),
        ("the cells' lines", format!("\nCELLS {n} {numbers}\n").into()),
        ("the nodes of the cells", big_endian(cells.into_iter().flatten())),
        ("the types' lines", format!("\nCELL_TYPES {n}\n").into()),
        ("types", column(&|element| cell_type(element.kind))),
        ("the materials' lines", material.into()),
        ("materials", column(&|element| element.material_id)),
        ("the regions' lines", "\nSCALARS region int 1\nLOOKUP_TABLE default\n".into()),
        ("regions", column(&|element| job.region_of(element) as u32)),
        ("the last lines", "\n".into()),
    ]
}

/// How many nodes an element has, and these in VTK's order: a wedge's triangles run clockwise, seen from above.
fn cell(element: &Element) -> Vec<u32> {
    let nodes = &element.nodes;
    let ordered = match element.kind {
        ElementType::Prism => [0, 2, 1, 3, 5, 4].map(|place| nodes[place]).to_vec(),
        _ => nodes.clone(),
    };
    [vec![nodes.len() as u32], ordered].concat()
}

fn big_endian(numbers: impl Iterator<Item = u32>) -> Vec<u8> {
    numbers.flat_map(u32::to_be_bytes).collect()
}

fn cell_type(kind: ElementType) -> u32 {
    match kind {
        ElementType::Tet => 10,
        ElementType::Hex => 12,
        ElementType::Prism => 13,
        ElementType::Pyramid => 14,
    }
}
