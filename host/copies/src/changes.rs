//! What a copy of a sound block has otherwise.
use cases::blocks::Kind;

#[derive(Clone, Copy, PartialEq, Debug)]
pub enum Change {
    Nothing,
    Byte { place: usize, value: u8 },
    Truncated { length: usize },
    Lengthened { more: usize, with: u8 },
    /// A row has another's key.
    KeyOfRow { from: usize, to: usize },
}

use Change::*;

/// Each change of one byte, each shorter length, each longer one up to a row, each pair of keys.
pub fn all(kind: Kind, sound: &[u8], rows: usize) -> Vec<Change> {
    let mut changes = vec![Nothing];
    for (place, byte) in sound.iter().enumerate() {
        changes.extend((0..=255).filter(|value| value != byte).map(|value| Byte { place, value }));
    }
    changes.extend((0..sound.len()).map(|length| Truncated { length }));
    for more in 1..=kind.length(1) - 2 {
        changes.extend([0, 1, b'n', 255].map(|with| Lengthened { more, with }));
    }
    for from in 0..rows {
        changes.extend((0..rows).filter(|to| *to != from).map(|to| KeyOfRow { from, to }));
    }
    changes
}

impl Change {
    pub fn of(self, kind: Kind, sound: &[u8]) -> Vec<u8> {
        let mut copy = sound.to_vec();
        match self {
            Nothing => {}
            Byte { place, value } => copy[place] = value,
            Truncated { length } => copy.truncate(length),
            Lengthened { more, with } => copy.resize(sound.len() + more, with),
            KeyOfRow { from, to } => {
                let key = kind.widths().0;
                copy.copy_within(2 + from * key..2 + from * key + key, 2 + to * key);
            }
        }
        copy
    }
}
