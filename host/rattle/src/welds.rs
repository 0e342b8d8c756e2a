//! The calls on a whole mesh, and what they left in the lists that they were lent.
use crate::meshes::{self, PAST};
use crate::raw::*;
use cases::welds::{Call, Fault, Given, Job, Mesh};

/// What the counts and the volume are before the call.
const COUNTS: [usize; 2] = [0xa5a5_a5a5_a5a5_a5a5, 0x5a5a_5a5a_5a5a_5a5a];
const VOLUME: f64 = f64::from_bits(0xa5a5_a5a5_a5a5_a5a5);

/// The mesh that was lent; the mesh that was written, with the status and the counts; and the volume.
pub struct Left {
    pub read: meshes::Left,
    pub mesh: meshes::Left,
    pub volume: f64,
}

impl Left {
    /// Before the call.
    pub fn before(job: &Job) -> Left {
        Left { read: lent(&job.mesh), mesh: meshes::Left::of(COUNTS, job.lengths), volume: VOLUME }
    }

    /// What is expected: a refusal leaves everything; an accepted call writes its nodes and elements, or its volume, and leaves the rest.
    pub fn expected<T>(job: &Job, answer: &Result<(Given, T), Fault>) -> Left {
        match answer {
            Ok((given, _)) => Left::given(job, given),
            Err(fault) => {
                let mut after = Left::before(job);
                after.mesh.status = fault.status();
                after
            }
        }
    }

    /// The same of an accepted call.
    pub fn given(job: &Job, given: &Given) -> Left {
        let mut after = Left::before(job);
        match given {
            Given::Volume(volume) => after.volume = *volume,
            Given::Welded { mesh, regions } => {
                after.mesh.counts = [0; 2];
                after.mesh.append(mesh, regions);
            }
        }
        after
    }

    /// Whether every entry is the same, floats by their bits.
    pub fn same(&self, other: &Left) -> bool {
        self.read.same(&other.read) && self.mesh.same(&other.mesh) && self.volume.to_bits() == other.volume.to_bits()
    }
}

/// The mesh's lists, with entries past their end that are not lent, and that no mesh may have.
fn lent(mesh: &Mesh) -> meshes::Left {
    meshes::Left {
        status: 0,
        counts: [0; 2],
        coordinates: mesh.coordinates.each_ref().map(|list| [&list[..], &[f64::NAN; PAST]].concat()),
        kinds: [&mesh.kinds[..], &[255; PAST]].concat(),
        places: [&mesh.places[..], &[u32::MAX - 1; PAST]].concat(),
        regions: [&mesh.regions[..], &[u32::MAX - 1; PAST]].concat(),
    }
}

pub fn answer(job: &Job) -> Left {
    let mut after = Left::before(job);
    call(job, &mut after);
    after
}

/// The call on these lists.
pub fn call(job: &Job, after: &mut Left) {
    let read = &after.read;
    let [x, y, z] = read.coordinates.each_ref().map(|list| (list.as_ptr(), list.len() - PAST));
    let k = (read.kinds.as_ptr(), read.kinds.len() - PAST);
    let [p, r] = [&read.places, &read.regions].map(|list| (list.as_ptr(), list.len() - PAST));
    let mesh = &mut after.mesh;
    let [ox, oy, oz] = mesh.coordinates.each_mut().map(|list| (list.as_mut_ptr(), list.len() - PAST));
    let ok = (mesh.kinds.as_mut_ptr(), mesh.kinds.len() - PAST);
    let [op, or] = [&mut mesh.places, &mut mesh.regions].map(|list| (list.as_mut_ptr(), list.len() - PAST));
    let [nodes, elements] = &mut mesh.counts;
    mesh.status = unsafe {
        match job.call {
            Call::WeldNodes => openrdson_weld_nodes(
                x.0, x.1, y.0, y.1, z.0, z.1, k.0, k.1, p.0, p.1, r.0, r.1, job.tolerance,
                ox.0, ox.1, oy.0, oy.1, oz.0, oz.1, ok.0, ok.1, op.0, op.1, or.0, or.1, nodes, elements,
            ),
            Call::MeshVolume => {
                openrdson_mesh_volume(x.0, x.1, y.0, y.1, z.0, z.1, k.0, k.1, p.0, p.1, r.0, r.1, &mut after.volume)
            }
        }
    };
}
