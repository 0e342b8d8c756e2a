//! The calls that read a block of a kind, with the copy in each of its places, and what they are asked for.
use crate::sound;
use cases::blocks::{Kind, Lent, Name};
use cases::call::{Call, CALLS};
use cases::case::{Case, COPY};

/// A case, and the place of the copy among what it is lent; the other blocks are sound.
pub struct Ask {
    pub case: Case,
    pub place: usize,
}

pub fn calls(kind: Kind) -> Vec<Ask> {
    let reads = |call: &Call| (0..call.blocks().len()).filter(|place| call.blocks()[*place] == kind).collect::<Vec<_>>();
    CALLS.iter().flat_map(|call| reads(call).into_iter().map(|place| Ask::new(*call, place))).collect()
}

impl Ask {
    fn new(call: Call, place: usize) -> Ask {
        let mut case = Case::of_numbers(call, &[]);
        if call == Call::CopyPhysicalName {
            case.params[0] = COPY as u64;
        }
        case.lent = call.blocks().iter().map(|kind| Lent::block(sound::beside(*kind))).collect();
        if call.asks_name() {
            case.lent.push(Lent::name(vec![]));
        }
        Ask { case, place }
    }

    /// How often it is asked.
    pub fn times(&self, keys: &Keys) -> usize {
        match self.case.call {
            Call::LayerName => keys.layers.len(),
            call if call.asks_name() => keys.names.len(),
            _ => 1,
        }
    }

    /// Asks for one of the keys.
    pub fn set(&mut self, keys: &Keys, time: usize) {
        match self.case.call {
            Call::LayerName => self.case.params[0] = keys.layers[time] as u64,
            call if call.asks_name() => self.case.lent[call.blocks().len()] = Lent::name(keys.names[time].clone()),
            _ => {}
        }
    }
}

/// What is asked for: the keys of the sound block and of the copy, and some that neither has.
pub struct Keys {
    names: Vec<Name>,
    layers: Vec<i16>,
}

impl Keys {
    pub fn of(kind: Kind, sound: &[u8], copy: &[u8]) -> Keys {
        let mut keys = Keys { names: vec![vec![], b"none".to_vec()], layers: vec![0, 2] };
        for block in [sound, copy] {
            let rows = block[block.len().min(2)..].chunks_exact(kind.widths().0).take(sound[0] as usize);
            for key in rows {
                if kind == Kind::LayerNames {
                    keys.layers.push(i16::from_le_bytes([key[0], key[1]]));
                } else {
                    keys.names.push(key.split(|byte| *byte == 0).next().unwrap().to_vec());
                }
            }
        }
        keys.names.sort();
        keys.names.dedup();
        keys.layers.sort();
        keys.layers.dedup();
        keys
    }
}
