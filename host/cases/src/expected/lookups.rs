//! What the Rust says of a call on name blocks, built from the rows that the bytes were made of.
use crate::blocks::{Name, Rows};
use crate::call::Call::*;
use crate::case::{Answer, Case, BEFORE, COPY};
use oracle::core::layout::LayoutIR;
use oracle::core::tech::{Conductor, Diffusion, LayerMap, TechStack, Via};
use oracle::geometry::{assemble_stack, reach};
use std::collections::BTreeMap;

/// Whether the Rust says otherwise than this answer. It is asked where no block is damaged, every name is UTF-8 and
/// the answer is no refusal; sound rows must not be refused as damaged.
pub fn differs(case: &Case, answer: &Answer) -> bool {
    let Some(blocks) = undamaged(case) else { return false };
    if case.call == CheckBlocks || case.call == StackLayer {
        let expected = if blocks.iter().all(|rows| figures_admitted(rows)) { 0 } else { 1 };
        if answer.status != expected || expected == 1 || case.call == CheckBlocks {
            return answer.status != expected;
        }
    }
    answer.status != 0 || agrees(case, &blocks, &answer.values) == Some(false)
}

fn undamaged(case: &Case) -> Option<Vec<&Rows>> {
    case.lent[..case.call.blocks().len()].iter().map(|lent| lent.rows.as_ref()).collect()
}

fn figures_admitted(rows: &Rows) -> bool {
    let Rows::Stack(rows) = rows else { return true };
    let mut figures = rows.iter().flat_map(|row| [row.height, row.thickness]).flatten();
    figures.all(|figure| (-524_288.0..=524_288.0).contains(&figure))
}

/// None where a name is not UTF-8.
fn agrees(case: &Case, blocks: &[&Rows], values: &[u64]) -> Option<bool> {
    if case.call == LayerName {
        let layout = LayoutIR { layer_names: layer_names(blocks[0])?, ..LayoutIR::default() };
        return Some(part(case, 0, &values[..2]) == layout.layer_name(case.layer()).map(str::as_bytes));
    }
    let name = std::str::from_utf8(case.name()).ok()?;
    match case.call {
        LookUp | PhysicalName | CopyPhysicalName => named(case, blocks, name, values),
        StackLayer => {
            let stack = stack(&[blocks[0], blocks[0]])?;
            let conductor = stack.conductor(name).map(|layer| (layer.height, layer.thickness));
            let diffusion = stack.diffusion(name).map(|layer| (layer.height, layer.thickness));
            Some([conductor, diffusion].into_iter().all(|layer| values[..5] == figures(layer)))
        }
        ViaLayers => {
            let stack = stack(&[blocks[0]])?;
            let via = stack.via(name);
            let end = |layer: &Option<String>| layer.clone().map(String::into_bytes);
            let said = [1, 3].map(|at| part(case, 0, &values[at..at + 2]).map(<[u8]>::to_vec));
            let expected = via.map_or([None, None], |via| [end(&via.bottom_layer), end(&via.top_layer)]);
            Some(values[0] == via.is_some() as u64 && said == expected)
        }
        MaterialNumber => {
            let (model, _) = assemble_stack(&LayoutIR::default(), &stack(blocks)?, &LayerMap::default());
            let place = model.material_names.iter().position(|n| n == name);
            Some(values[0] == place.map_or(0, |i| i as u64 + 1))
        }
        _ => Some(values[0] == reach::is_marker(name) as u64),
    }
}

/// The lookup in the two maps.
fn named(case: &Case, blocks: &[&Rows], name: &str, values: &[u64]) -> Option<bool> {
    let map = LayerMap { conducting: map(blocks[0])?, via: map(blocks[1])? };
    let physical = map.conducting.get(name).or_else(|| map.via.get(name));
    if case.call == LookUp {
        return Some(values[0] == physical.is_some() as u64);
    }
    if case.call == CopyPhysicalName {
        return Some(*values == copied(case, physical).values);
    }
    let block = match (map.conducting.get(name), physical) {
        (Some(_), _) => 1,
        (None, Some(_)) => 2,
        (None, None) => 0,
    };
    let said = if block == 0 { None } else { part(case, block - 1, &values[1..3]) };
    Some(values[0] == block as u64 && said == physical.map(String::as_bytes))
}

/// The copy of a name that may be absent.
fn copied(case: &Case, name: Option<&String>) -> Answer {
    let name = name.map_or(&[][..], |name| name.as_bytes());
    let mut copy = [BEFORE; COPY];
    for (byte, of_name) in copy[..case.room()].iter_mut().zip(name) {
        *byte = *of_name;
    }
    Answer::copied(name.len(), &copy)
}

/// The part of a block that a start and a length stand for; none if both are 0.
fn part<'a>(case: &'a Case, block: usize, at: &[u64]) -> Option<&'a [u8]> {
    let (start, length) = (at[0] as usize, at[1] as usize);
    (at != [0, 0]).then(|| &case.block(block)[start..start + length])
}

fn figures(layer: Option<(Option<f64>, Option<f64>)>) -> [u64; 5] {
    let bits = |figure: Option<f64>| figure.unwrap_or(0.0).to_bits();
    match layer {
        None => [0; 5],
        Some((height, thickness)) => {
            [1, height.is_some() as u64, bits(height), thickness.is_some() as u64, bits(thickness)]
        }
    }
}

fn text(name: &Name) -> Option<String> {
    String::from_utf8(name.clone()).ok()
}

/// None inside where there is none.
fn text_if(name: &Option<Name>) -> Option<Option<String>> {
    match name {
        None => Some(None),
        Some(name) => text(name).map(Some),
    }
}

pub(super) fn layer_names(rows: &Rows) -> Option<BTreeMap<i16, String>> {
    let Rows::LayerNames(rows) = rows else { return None };
    rows.iter().map(|(number, name)| Some((*number, text(name)?))).collect()
}

pub(super) fn map(rows: &Rows) -> Option<BTreeMap<String, String>> {
    let Rows::Map(rows) = rows else { return None };
    rows.iter().map(|(logical, physical)| Some((text(logical)?, text(physical)?))).collect()
}

/// Stack blocks are conductors, then diffusions.
pub(super) fn stack(blocks: &[&Rows]) -> Option<TechStack> {
    let mut stack = TechStack::default();
    for (place, rows) in blocks.iter().enumerate() {
        match rows {
            Rows::Stack(rows) => {
                for row in rows {
                    let (name, height, thickness) = (text(&row.name)?, row.height, row.thickness);
                    if place == 0 {
                        stack.conductors.push(Conductor { name, height, thickness, ..Conductor::default() });
                    } else {
                        stack.diffusions.push(Diffusion { name, height, thickness, ..Diffusion::default() });
                    }
                }
            }
            Rows::Vias(rows) => {
                for row in rows {
                    let (bottom_layer, top_layer) = (text_if(&row.bottom)?, text_if(&row.top)?);
                    stack.vias.push(Via { name: text(&row.name)?, bottom_layer, top_layer, ..Via::default() });
                }
            }
            _ => {}
        }
    }
    Some(stack)
}
