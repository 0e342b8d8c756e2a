//! The calls that mesh a model, and what they left in the lists that they were lent.
use crate::meshes::{self, list, PAST};
use crate::raw::*;
use cases::models::{Call, Fault, Given, Job};

/// The mesh with the status, and the diagnostics, after the call.
pub struct Left {
    pub mesh: meshes::Left,
    pub diagnostics: Vec<u32>,
}

impl Left {
    /// Before the call.
    pub fn before(job: &Job) -> Left {
        Left { mesh: meshes::Left::of(job.counts, job.lengths), diagnostics: list(job.diagnostics, |word| word as u32) }
    }

    /// What is expected: a refusal leaves everything; an accepted call writes after the counts that it was given, and a diagnostic a region, and leaves
    /// the rest.
    pub fn expected(job: &Job, answer: &Result<Given, Fault>) -> Left {
        match answer {
            Ok(given) => Left::given(job, given),
            Err(fault) => {
                let mut after = Left::before(job);
                after.mesh.status = fault.status();
                after
            }
        }
    }

    /// The same of an accepted call.
    pub fn given(job: &Job, given: &Given) -> Left {
        let mut after = Left::before(job);
        after.mesh.append(&given.mesh, &given.regions);
        after.diagnostics.iter_mut().zip(given.diagnostics()).for_each(|(entry, diagnostic)| *entry = diagnostic);
        after
    }

    /// Whether every entry is the same, floats by their bits.
    pub fn same(&self, other: &Left) -> bool {
        self.mesh.same(&other.mesh) && self.diagnostics == other.diagnostics
    }
}

pub fn answer(job: &Job) -> Left {
    let mut after = Left::before(job);
    call(job, &mut after);
    after
}

/// The call on these lists, with these counts.
pub fn call(job: &Job, after: &mut Left) {
    let rows = &job.regions;
    let [x0, y0, x1, y1, z0, z1] = rows.bounds.each_ref().map(|list| (list.as_ptr(), list.len()));
    let [s, n, m, t, g] = rows.numbers.each_ref().map(|list| (list.as_ptr(), list.len()));
    let materials = &job.overrides.materials;
    let [laterals, verticals] = job.overrides.sizes.each_ref().map(|list| (list.as_ptr(), list.len()));
    let [across, up] = job.cells;
    let mesh = &mut after.mesh;
    let [x, y, z] = mesh.coordinates.each_mut().map(|list| (list.as_mut_ptr(), list.len() - PAST));
    let k = (mesh.kinds.as_mut_ptr(), mesh.kinds.len() - PAST);
    let [p, r, d] = [&mut mesh.places, &mut mesh.regions, &mut after.diagnostics].map(|list| (list.as_mut_ptr(), list.len() - PAST));
    let [nodes, elements] = &mut mesh.counts;
    macro_rules! on_model {
        ($call:ident($($given:expr),*)) => {
            unsafe {
                $call(
                    rows.kinds.as_ptr(), rows.kinds.len(), x0.0, x0.1, y0.0, y0.1, x1.0, x1.1, y1.0, y1.1, z0.0, z0.1, z1.0, z1.1,
                    s.0, s.1, n.0, n.1, m.0, m.1, t.0, t.1, g.0, g.1,
                    job.xs.as_ptr(), job.xs.len(), job.ys.as_ptr(), job.ys.len(), $($given,)* across, up,
                    x.0, x.1, y.0, y.1, z.0, z.1, k.0, k.1, p.0, p.1, r.0, r.1, d.0, d.1, nodes, elements,
                )
            }
        };
    }
    mesh.status = match job.call {
        Call::MeshModel => on_model!(openrdson_mesh_model()),
        Call::MeshModelWithOptions => on_model!(openrdson_mesh_model_with_options(
            materials.as_ptr(), materials.len(), laterals.0, laterals.1, verticals.0, verticals.1
        )),
    };
}
