//! The calls on name blocks.
use crate::outputs::{plain, Outputs, Said};
use crate::raw::*;
use cases::call::Call::*;
use cases::case::{Answer, Case, BEFORE, COPY};

/// What is said of the case, its blocks and the name asked for lent from here.
pub fn answer(case: &Case, lent: &[&[u8]]) -> Said {
    if case.call == CopyPhysicalName {
        return plain(unsafe { copied(case, lent) });
    }
    let mut outputs = Outputs::new();
    let status = unsafe { status(case, lent, &mut outputs) };
    outputs.said(status, case.call.gives())
}

/// The status of the call, its values among the outputs.
unsafe fn status(case: &Case, lent: &[&[u8]], outputs: &mut Outputs) -> u32 {
    let list = |place: usize| lent.get(place).map_or((std::ptr::null(), 0), |bytes| (bytes.as_ptr(), bytes.len()));
    let [(a, na), (b, nb), (c, nc), (d, nd), (e, ne), (f, nf)] = std::array::from_fn(list);
    let [truth, has_height, _, has_thickness, ..] = outputs.places::<bool>();
    let [number, ..] = outputs.places::<u32>();
    let [p1, p2, p3, p4, p5, ..] = outputs.places::<usize>();
    let [_, _, height, _, thickness, ..] = outputs.places::<f64>();
    match case.call {
        CheckBlocks => openrdson_check_blocks(a, na, b, nb, c, nc, d, nd, e, ne, f, nf),
        LookUp => openrdson_look_up(a, na, b, nb, c, nc, truth),
        PhysicalName => openrdson_physical_name(a, na, b, nb, c, nc, number, p2, p3),
        LayerName => openrdson_layer_name(a, na, case.layer(), p1, p2),
        StackLayer => openrdson_stack_layer(a, na, b, nb, truth, has_height, height, has_thickness, thickness),
        ViaLayers => openrdson_via_layers(a, na, b, nb, truth, p2, p3, p4, p5),
        MaterialNumber => openrdson_material_number(a, na, b, nb, c, nc, d, nd, number),
        _ => unreachable!("{} is no call on blocks", case.call.name()),
    }
}

/// The copy of a physical name.
unsafe fn copied(case: &Case, lent: &[&[u8]]) -> Answer {
    let [a, b, c] = [lent[0], lent[1], lent[2]];
    let mut copy = [BEFORE; COPY];
    let (to, room) = (copy.as_mut_ptr(), case.room());
    let (pa, pb, pc) = (a.as_ptr(), b.as_ptr(), c.as_ptr());
    let length = openrdson_copy_physical_name(pa, a.len(), pb, b.len(), pc, c.len(), to, room);
    Answer::copied(length, &copy)
}
