//! A small stacking job, whose blocks are lent from anywhere.
use crate::sound;
use cases::blocks::{Kind, Lent};
use cases::stacks::{Job, BLOCKS};

/// A square, a triangle and a part of the square, on the layers of the sound blocks; there is room for one region more.
pub fn job() -> Job {
    Job {
        blocks: BLOCKS.iter().map(|kind| Lent::block(sound::beside(*kind))).collect(),
        layers: vec![1, -2, 257],
        polygons: [vec![7, 0, 1], vec![0, 4, 1], vec![4, 3, 3]],
        xs: vec![0.0, 2.0, 2.0, 0.0, 0.0, 1.0, 0.0].into(),
        ys: vec![0.0, 0.0, 2.0, 2.0, 0.0, 0.0, 1.0].into(),
        regions: [4; 12],
        outcomes: 4,
    }
}

/// The places of a kind among the six blocks.
pub fn places(kind: Kind) -> impl Iterator<Item = usize> {
    (0..6).filter(move |place| BLOCKS[*place] == kind)
}
