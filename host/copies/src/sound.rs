//! The sound blocks that are copied: three rows, two and none of each kind. Their names are found in each other.
use cases::blocks::{Kind, Layer, Name, Rows, Via};

const LOGICAL: &[u8] = b"M";
const LOGICAL_LONGER: &[u8] = b"M1";
const LOGICAL_WHOLE_CELL: &[u8] = b"net_nnnnnnnnnnnnnnnnnnnnnnnnnnnn";
const PHYSICAL: &[u8] = b"P";
const PHYSICAL_LONGER: &[u8] = b"P123456";
const PHYSICAL_WHOLE_CELL: &[u8] = b"pppppppppppppppppppppppppppppppp";

pub fn blocks(kind: Kind) -> [Rows; 3] {
    match kind {
        Kind::LayerNames => layer_names(),
        Kind::Map => maps(),
        Kind::Stack => stacks(),
        Kind::Vias => vias(),
    }
}

/// The block of this kind that is lent beside a copy.
pub fn beside(kind: Kind) -> Rows {
    blocks(kind)[1].clone()
}

fn layer_names() -> [Rows; 3] {
    let row = |layer: i16, name: &[u8]| (layer, name.to_vec());
    // The first two numbers differ in one byte.
    let three = vec![row(1, LOGICAL), row(257, LOGICAL_WHOLE_CELL), row(-2, LOGICAL_LONGER)];
    [three, vec![row(-2, LOGICAL_WHOLE_CELL), row(1, LOGICAL)], vec![]].map(Rows::LayerNames)
}

fn maps() -> [Rows; 3] {
    let row = |logical: &[u8], physical: &[u8]| (logical.to_vec(), physical.to_vec());
    let three = vec![
        row(LOGICAL, PHYSICAL),
        row(LOGICAL_LONGER, PHYSICAL_WHOLE_CELL),
        row(LOGICAL_WHOLE_CELL, PHYSICAL_LONGER),
    ];
    [three, vec![row(LOGICAL_WHOLE_CELL, PHYSICAL), row(LOGICAL, PHYSICAL_LONGER)], vec![]].map(Rows::Map)
}

fn stacks() -> [Rows; 3] {
    let row = |name: &[u8], height, thickness| Layer { name: name.to_vec(), height, thickness };
    let three = vec![
        row(PHYSICAL, Some(0.5), Some(0.25)),
        row(PHYSICAL_LONGER, Some(-524288.0), None),
        row(PHYSICAL_WHOLE_CELL, None, None),
    ];
    let two = vec![row(PHYSICAL_LONGER, None, Some(1e-7)), row(PHYSICAL, Some(2.0), Some(524288.0))];
    [three, two, vec![]].map(Rows::Stack)
}

fn vias() -> [Rows; 3] {
    let end = |name: &[u8]| -> Option<Name> { (!name.is_empty()).then(|| name.to_vec()) };
    let row = |name: &[u8], bottom: &[u8], top: &[u8]| Via { name: name.to_vec(), bottom: end(bottom), top: end(top) };
    let three = vec![
        row(PHYSICAL_WHOLE_CELL, PHYSICAL, PHYSICAL),
        row(PHYSICAL, PHYSICAL_WHOLE_CELL, b""),
        row(PHYSICAL_LONGER, b"", b""),
    ];
    let two = vec![row(b"V", PHYSICAL_LONGER, PHYSICAL), row(PHYSICAL_WHOLE_CELL, b"", PHYSICAL)];
    [three, two, vec![]].map(Rows::Vias)
}
