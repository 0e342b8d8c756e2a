//! Lookups: the Rust asks its maps and lists, made before; Rattle reads and checks the blocks in each call.
use crate::row::{effort, plain, side, Effort, Row, Sides};
use cases::blocks::{Layer, Rows, Via};
use oracle::core::layout::LayoutIR;
use oracle::core::tech::{self, Conductor, Diffusion, LayerMap, TechStack};
use oracle::geometry::{assemble_stack, reach};
use ::rattle::raw::*;
use std::collections::BTreeMap;
use std::hint::black_box;
use std::sync::Arc;

/// The same layers in the form of each side: so many rows in each of the six blocks.
pub struct Layers {
    pub layout: LayoutIR,
    pub map: LayerMap,
    pub stack: TechStack,
    /// Layer names, conducting, via, conductors, diffusions, vias.
    pub blocks: [Vec<u8>; 6],
    pub numbers: Vec<i16>,
    /// The Rust's table of material names, made by `assemble_stack`.
    materials: Vec<String>,
    logical: Vec<String>,
    conductors: Vec<String>,
    vias: Vec<String>,
}

fn named(prefix: &str, n: usize) -> Vec<String> {
    (0..n).map(|i| format!("{prefix}{i}")).collect()
}

fn bytes(name: &String) -> Vec<u8> {
    name.clone().into_bytes()
}

/// The height and the thickness of layer i.
fn figures(i: usize) -> [Option<f64>; 2] {
    [Some(i as f64 * 1e-6), Some(0.5e-6)]
}

pub fn layers(n: usize) -> Layers {
    let (logical, logical_vias) = (named("net_M", n), named("net_VIA", n));
    let stack = stack(n);
    let conductors: Vec<String> = stack.conductors.iter().map(|layer| layer.name.clone()).collect();
    let vias: Vec<String> = stack.vias.iter().map(|via| via.name.clone()).collect();
    let numbers: Vec<i16> = (0..n as i16).map(|i| 7 * i - 100).collect();
    let pairs = |keys: &[String], values: &[String]| keys.iter().cloned().zip(values.iter().cloned()).collect();
    let layer_names = numbers.iter().copied().zip(logical.iter().cloned()).collect();
    let map = LayerMap { conducting: pairs(&logical, &conductors), via: pairs(&logical_vias, &vias) };
    let layout = LayoutIR { layer_names, ..LayoutIR::default() };
    let blocks = blocks(&layout, &map, &stack);
    let (model, _) = assemble_stack(&LayoutIR::default(), &stack, &LayerMap::default());
    Layers { layout, map, stack, blocks, numbers, materials: model.material_names, logical, conductors, vias }
}

/// Via i goes from conductor i to the next.
fn stack(n: usize) -> TechStack {
    let (conductors, diffusions, vias) = (named("M", n), named("DIFF", n), named("VIA", n));
    let mut stack = TechStack::default();
    for i in 0..n {
        let [height, thickness] = figures(i);
        let [bottom_layer, top_layer] = [i, (i + 1) % n].map(|layer| Some(conductors[layer].clone()));
        stack.conductors.push(Conductor { name: conductors[i].clone(), height, thickness, ..Conductor::default() });
        stack.diffusions.push(Diffusion { name: diffusions[i].clone(), height, thickness, ..Diffusion::default() });
        stack.vias.push(tech::Via { name: vias[i].clone(), bottom_layer, top_layer, ..tech::Via::default() });
    }
    stack
}

fn blocks(layout: &LayoutIR, map: &LayerMap, stack: &TechStack) -> [Vec<u8>; 6] {
    let mapped = |map: &BTreeMap<String, String>| Rows::Map(map.iter().map(|(k, v)| (bytes(k), bytes(v))).collect());
    let layer = |name: &String, height, thickness| Layer { name: bytes(name), height, thickness };
    let end = |name: &Option<String>| name.as_ref().map(bytes);
    let via = |via: &tech::Via| Via { name: bytes(&via.name), bottom: end(&via.bottom_layer), top: end(&via.top_layer) };
    let rows = [
        Rows::LayerNames(layout.layer_names.iter().map(|(number, name)| (*number, bytes(name))).collect()),
        mapped(&map.conducting),
        mapped(&map.via),
        Rows::Stack(stack.conductors.iter().map(|c| layer(&c.name, c.height, c.thickness)).collect()),
        Rows::Stack(stack.diffusions.iter().map(|d| layer(&d.name, d.height, d.thickness)).collect()),
        Rows::Vias(stack.vias.iter().map(via).collect()),
    ];
    rows.map(|rows| rows.bytes())
}

pub fn rows() -> Vec<Row> {
    [16, 256].into_iter().flat_map(rows_of).collect()
}

fn rows_of(n: usize) -> Vec<Row> {
    let asking = Effort { answers: n, ..if n == 16 { effort(1000, 20) } else { effort(100, 1) } };
    let [maps, block, blocks] = ["maps", "block", "blocks"].map(|word| format!("{word} of {n} rows"));
    vec![
        Row::new("look_up", &maps, asking, move || asked(n, |all| &all.logical, rust::look_up, rattle::look_up)),
        Row::new("physical_name", &maps, asking, move || asked(n, |all| &all.logical, rust::physical_name, rattle::physical_name)),
        Row::new("layer_name", &block, asking, move || asked(n, |all| &all.numbers, rust::layer_name, rattle::layer_name)),
        Row::new("stack_layer", &block, asking, move || asked(n, |all| &all.conductors, rust::stack_layer, rattle::stack_layer)),
        Row::new("via_layers", &block, asking, move || asked(n, |all| &all.vias, rust::via_layers, rattle::via_layers)),
        Row::new("material_number, conductor", &blocks, asking, move || asked(n, |all| &all.conductors, rust::material_number, rattle::material_number)),
        Row::new("material_number, via", &blocks, asking, move || asked(n, |all| &all.vias, rust::material_number, rattle::material_number)),
        Row::new("check_blocks (the Rust has none)", &format!("six {blocks}"), effort(200, 20), move || check_blocks(n)),
        Row::new("is_marker", &format!("{n} names"), asking, move || asked(n, |all| &all.logical, rust::is_marker, rattle::is_marker)),
    ]
}

/// Each of the names is asked for.
fn asked<T: 'static>(
    n: usize, names: fn(&Layers) -> &Vec<T>, rust: impl Fn(&Layers, &T) + Send + 'static, rattle: impl Fn(&Layers, &T) + Send + 'static,
) -> Sides {
    let rust = move |all: &Layers| black_box(names(all)).iter().for_each(|name| rust(black_box(all), name));
    let rattle = move |all: &Layers| black_box(names(all)).iter().for_each(|name| rattle(black_box(all), name));
    plain(layers(n), rust, rattle)
}

fn check_blocks(n: usize) -> Sides {
    let rattle = |all: &Layers, (): &mut ()| {
        let [a, b, c, d, e, f] = all.blocks.each_ref().map(|block| (block.as_ptr(), block.len()));
        let status = unsafe { openrdson_check_blocks(a.0, a.1, b.0, b.1, c.0, c.1, d.0, d.1, e.0, e.1, f.0, f.1) };
        assert!(black_box(status) == 0);
    };
    [None, side(&Arc::new(layers(n)), |_| (), rattle)]
}

/// The Rust's lookups.
mod rust {
    use super::*;

    pub fn look_up(all: &Layers, name: &String) {
        black_box(all.map.conducting.get(name).or_else(|| all.map.via.get(name)).is_some());
    }

    pub fn physical_name(all: &Layers, name: &String) {
        black_box(all.map.conducting.get(name).or_else(|| all.map.via.get(name)));
    }

    pub fn layer_name(all: &Layers, number: &i16) {
        black_box(all.layout.layer_name(*number));
    }

    pub fn stack_layer(all: &Layers, name: &String) {
        black_box(all.stack.conductor(name).map(|layer| (layer.height, layer.thickness)));
    }

    pub fn via_layers(all: &Layers, name: &String) {
        black_box(all.stack.via(name).map(|via| (&via.bottom_layer, &via.top_layer)));
    }

    pub fn material_number(all: &Layers, name: &String) {
        let place = all.materials.iter().position(|material| material == name);
        black_box(place.map(|i| (i + 1) as u32));
    }

    pub fn is_marker(_: &Layers, name: &String) {
        black_box(reach::is_marker(black_box(name)));
    }
}

/// Rattle's.
mod rattle {
    use super::*;

    pub fn look_up(all: &Layers, name: &String) {
        let [_, conducting, via, ..] = &all.blocks;
        let mut found = false;
        let (c, v) = (conducting.as_ptr(), via.as_ptr());
        unsafe { openrdson_look_up(c, conducting.len(), v, via.len(), name.as_ptr(), name.len(), &mut found) };
        assert!(black_box(found));
    }

    pub fn physical_name(all: &Layers, name: &String) {
        let [_, conducting, via, ..] = &all.blocks;
        let (c, v) = (conducting.as_ptr(), via.as_ptr());
        let (mut block, mut start, mut length) = (0, 0, 0);
        let at = (&mut block, &mut start, &mut length);
        unsafe {
            openrdson_physical_name(c, conducting.len(), v, via.len(), name.as_ptr(), name.len(), at.0, at.1, at.2)
        };
        assert!(black_box((block, start, length)).0 == 1);
    }

    pub fn layer_name(all: &Layers, number: &i16) {
        let names = &all.blocks[0];
        let (mut start, mut length) = (0, 0);
        unsafe { openrdson_layer_name(names.as_ptr(), names.len(), *number, &mut start, &mut length) };
        assert!(black_box((start, length)).1 > 0);
    }

    pub fn stack_layer(all: &Layers, name: &String) {
        let block = &all.blocks[3];
        let (mut found, mut has, mut figures) = (false, [false; 2], [0.0; 2]);
        let [has_height, has_thickness] = &mut has;
        let [height, thickness] = &mut figures;
        let (b, s) = (block.as_ptr(), name.as_ptr());
        unsafe {
            openrdson_stack_layer(
                b, block.len(), s, name.len(), &mut found, has_height, height, has_thickness, thickness,
            )
        };
        assert!(black_box((found, has, figures)).0);
    }

    pub fn via_layers(all: &Layers, name: &String) {
        let block = &all.blocks[5];
        let (mut found, mut places) = (false, [0; 4]);
        let [a, b, c, d] = &mut places;
        unsafe { openrdson_via_layers(block.as_ptr(), block.len(), name.as_ptr(), name.len(), &mut found, a, b, c, d) };
        assert!(black_box((found, places)).0);
    }

    pub fn material_number(all: &Layers, name: &String) {
        let [.., conductors, diffusions, vias] = &all.blocks;
        let mut material = 0;
        let [a, b, c] = [conductors, diffusions, vias].map(|block| block.as_ptr());
        let [na, nb, nc] = [conductors, diffusions, vias].map(Vec::len);
        unsafe { openrdson_material_number(a, na, b, nb, c, nc, name.as_ptr(), name.len(), &mut material) };
        assert!(black_box(material) > 0);
    }

    pub fn is_marker(_: &Layers, name: &String) {
        black_box(unsafe { openrdson_is_marker(name.as_ptr(), name.len()) });
    }
}
