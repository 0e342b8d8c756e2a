//! Name blocks: a count, then two parallel arrays.
use crate::core::layout::LayoutIR;
use crate::core::tech::{LayerMap, TechStack};

pub struct Blocks {
    pub names: Vec<u8>,
    pub conducting: Vec<u8>,
    pub via: Vec<u8>,
    pub conductors: Vec<u8>,
    pub diffusions: Vec<u8>,
    pub vias: Vec<u8>,
}

impl Blocks {
    pub fn of(layout: &LayoutIR, stack: &TechStack, map: &LayerMap) -> Blocks {
        let names = layout.layer_names.iter().map(|(layer, name)| (layer.to_le_bytes(), cell(name)));
        let conducting = map.conducting.iter().map(|(logical, physical)| (cell(logical), cell(physical)));
        let via = map.via.iter().map(|(logical, physical)| (cell(logical), cell(physical)));
        let conductors = stack.conductors.iter().map(|one| (cell(&one.name), figures(one.height, one.thickness)));
        let diffusions = stack.diffusions.iter().map(|one| (cell(&one.name), figures(one.height, one.thickness)));
        let vias = stack.vias.iter().map(|one| (cell(&one.name), ends(&one.bottom_layer, &one.top_layer)));
        Blocks {
            names: block(names),
            conducting: block(conducting),
            via: block(via),
            conductors: block(conductors),
            diffusions: block(diffusions),
            vias: block(vias),
        }
    }
}

/// More than 256 rows are 14, also those that the count cannot tell.
fn block<A: AsRef<[u8]>, B: AsRef<[u8]>>(rows: impl Iterator<Item = (A, B)>) -> Vec<u8> {
    let rows: Vec<(A, B)> = rows.collect();
    let mut bytes = u16::try_from(rows.len()).unwrap_or(u16::MAX).to_le_bytes().to_vec();
    rows.iter().for_each(|row| bytes.extend(row.0.as_ref()));
    rows.iter().for_each(|row| bytes.extend(row.1.as_ref()));
    bytes
}

/// A name that no cell can hold becomes one that is damaged, so that it is turned down with 14.
fn cell(name: &str) -> [u8; 32] {
    let mut cell = [0; 32];
    if (1..=32).contains(&name.len()) && !name.contains('\0') {
        cell[..name.len()].copy_from_slice(name.as_bytes());
    } else {
        cell[1] = 1;
    }
    cell
}

fn figures(height: Option<f64>, thickness: Option<f64>) -> Vec<u8> {
    let flags = u8::from(height.is_some()) + 2 * u8::from(thickness.is_some());
    let figure = |figure: Option<f64>| figure.map_or([0; 8], f64::to_le_bytes);
    [&[flags][..], &figure(height), &figure(thickness)].concat()
}

fn ends(bottom: &Option<String>, top: &Option<String>) -> Vec<u8> {
    let end = |name: &Option<String>| name.as_ref().map_or([0; 32], |name| cell(name));
    [end(bottom), end(top)].concat()
}
