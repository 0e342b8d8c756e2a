//! The calls that mesh a region, and what they left in the lists that they were lent.
use crate::raw::*;
use cases::meshes::{Call, Fault, Given, Job, Solid};
use cases::welds::Mesh;

/// Entries past the end of each list, which the call is not lent.
pub const PAST: usize = 2;

/// What is in the entry of this place before the call, and past the end of each list.
fn word(place: usize) -> u64 {
    0xa5a5_a5a5_a5a5_a5a5 ^ (place as u64).wrapping_mul(0x0100_0001_0001_0101)
}

pub fn list<T>(length: usize, entry: impl Fn(u64) -> T) -> Vec<T> {
    (0..length + PAST).map(|place| entry(word(place))).collect()
}

/// The status, and what was lent, after the call.
pub struct Left {
    pub status: u32,
    pub counts: [usize; 2],
    pub coordinates: [Vec<f64>; 3],
    pub kinds: Vec<u8>,
    pub places: Vec<u32>,
    pub regions: Vec<u32>,
}

impl Left {
    /// Before the call.
    pub fn before(job: &Job) -> Left {
        Left::of(job.counts, job.lengths)
    }

    /// The same of a mesh with these counts, and lists of these lengths.
    pub fn of(counts: [usize; 2], [xs, ys, zs, kinds, places, regions]: [usize; 6]) -> Left {
        Left {
            status: 0,
            counts,
            coordinates: [xs, ys, zs].map(|length| list(length, f64::from_bits)),
            kinds: list(kinds, |word| word as u8),
            places: list(places, |word| word as u32),
            regions: list(regions, |word| word as u32),
        }
    }

    /// What is expected: a refusal leaves everything, an accepted call writes after the counts that it was given and leaves the rest.
    pub fn expected(job: &Job, answer: &Result<Given, Fault>) -> Left {
        let mut after = Left::before(job);
        let given = match answer {
            Ok(given) => given,
            Err(fault) => {
                after.status = fault.status();
                return after;
            }
        };
        after.append(given, &vec![job.region; given.kinds.len()]);
        after
    }

    /// Nodes and elements, with the regions' numbers, after those that the counts tell of.
    pub fn append(&mut self, given: &Given, regions: &[u32]) {
        let [nodes, elements] = self.counts;
        for (i, node) in given.nodes.iter().enumerate() {
            self.coordinates.iter_mut().zip(node).for_each(|(list, x)| list[nodes + i] = *x);
        }
        let more = given.kinds.len();
        self.kinds[elements..elements + more].copy_from_slice(&given.kinds);
        self.places[8 * elements..8 * (elements + more)].copy_from_slice(&given.places);
        self.regions[elements..elements + more].copy_from_slice(regions);
        self.counts = [nodes + given.nodes.len(), elements + more];
    }

    /// The mesh that the counts tell of.
    pub fn mesh(&self) -> Mesh {
        let [nodes, elements] = self.counts;
        Mesh {
            coordinates: self.coordinates.each_ref().map(|list| list.iter().take(nodes).copied().collect()),
            kinds: self.kinds.iter().take(elements).copied().collect(),
            places: self.places.iter().take(elements.saturating_mul(8)).copied().collect(),
            regions: self.regions.iter().take(elements).copied().collect(),
        }
    }

    /// Whether every entry is the same, floats by their bits.
    pub fn same(&self, other: &Left) -> bool {
        let same_bits = |a: &[f64], b: &[f64]| a.iter().map(|x| x.to_bits()).eq(b.iter().map(|x| x.to_bits()));
        (self.status, self.counts) == (other.status, other.counts)
            && self.coordinates.iter().zip(&other.coordinates).all(|(a, b)| same_bits(a, b))
            && self.kinds == other.kinds
            && self.places == other.places
            && self.regions == other.regions
    }
}

pub fn answer(job: &Job) -> Left {
    let mut after = Left::before(job);
    call(job, &mut after);
    after
}

/// The call on these lists, with these counts.
pub fn call(job: &Job, after: &mut Left) {
    let (px, nx, py, ny) = (job.xs.as_ptr(), job.xs.len(), job.ys.as_ptr(), job.ys.len());
    let (material, region, [net, polygon], [across, up]) = (job.material, job.region, job.labels, job.cells);
    let [x, y, z] = after.coordinates.each_mut().map(|list| (list.as_mut_ptr(), list.len() - PAST));
    let k = (after.kinds.as_mut_ptr(), after.kinds.len() - PAST);
    let [p, r] = [&mut after.places, &mut after.regions].map(|list| (list.as_mut_ptr(), list.len() - PAST));
    let [nodes, elements] = &mut after.counts;
    macro_rules! on_mesh {
        ($call:ident($($given:expr),*)) => {
            unsafe { $call($($given,)* x.0, x.1, y.0, y.1, z.0, z.1, k.0, k.1, p.0, p.1, r.0, r.1, nodes, elements) }
        };
    }
    after.status = match job.solid {
        Solid::Box([min_x, min_y, max_x, max_y, z0, z1]) => {
            let bounds = Bbox { min_x, min_y, max_x, max_y };
            if job.call == Call::MeshBox {
                on_mesh!(openrdson_mesh_box(bounds, z0, z1, material, region, across, up))
            } else {
                on_mesh!(openrdson_mesh_box_region(
                    bounds, z0, z1, material, net, polygon, px, nx, py, ny, region, across, up
                ))
            }
        }
        Solid::Prism { heights: [z0, z1], start, count } => {
            if job.call == Call::MeshPrism {
                on_mesh!(openrdson_mesh_prism(px, nx, py, ny, z0, z1, start, count, material, region))
            } else {
                on_mesh!(openrdson_mesh_prism_region(
                    z0, z1, start, count, material, net, polygon, px, nx, py, ny, region, across, up
                ))
            }
        }
    };
}
