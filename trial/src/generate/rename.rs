//! Other names, properties, axes and channels throughout a pattern and its proposal, which change no
//! finding but the name that refusal 27 gives: one plan gives many inputs.

use oracle::random::Random;

/// What each number of a sort is combined with, by exclusive or, so that no two become one.
#[derive(Clone, Copy, Debug)]
pub struct Renaming {
    name: u8,
    property: u8,
    axis: u8,
    channel: u8,
}

impl Renaming {
    pub fn random(random: &mut Random) -> Renaming {
        Renaming {
            name: random.below(128) as u8,
            property: random.below(32) as u8,
            axis: random.below(8) as u8,
            channel: random.below(4) as u8,
        }
    }

    /// Renames in a valid pattern file.
    pub fn pattern(self, file: &mut [u8]) {
        for entry in file[6..].chunks_exact_mut(4) {
            entry[1] ^= match entry[0] {
                1 => self.property,
                2 | 9 => self.name,
                5 | 8 => self.axis,
                6 | 7 => self.channel,
                _ => 0,
            };
        }
    }

    /// Renames in a closed tableau file.
    pub fn tableau(self, file: &mut [u8]) {
        file[5] ^= self.name;
        for step in file[8..].chunks_exact_mut(6) {
            step[5] ^= match step[0] {
                5 | 14 => self.name,
                18 => self.channel,
                _ => 0,
            };
        }
    }

    /// Renames in a valid model file, and puts its edges in order again. A name that the pattern uses is listed
    /// afterwards just if it was before.
    pub fn model(self, file: &mut [u8]) {
        let (nodes, names) = (file[5] as usize, file[6] as usize);
        let (node_records, rest) = file[9..].split_at_mut(12 * nodes);
        let (name_records, edge_records) = rest.split_at_mut(2 * names);
        for node in node_records.chunks_exact_mut(12) {
            self.node(node);
        }
        for name in name_records.chunks_exact_mut(2) {
            name[0] ^= self.name;
        }
        let (edges, _) = edge_records.as_chunks_mut::<3>();
        for edge in &mut *edges {
            edge[1] ^= self.axis;
        }
        edges.sort_unstable();
    }

    /// Moves the properties and the values of a node record to their new places.
    fn node(self, record: &mut [u8]) {
        let old: [u8; 12] = record.try_into().expect("a node record has 12 bytes");
        let properties = u32::from_le_bytes([old[0], old[1], old[2], old[3]]);
        let moved = (0..32).fold(0, |set, property| {
            set | (properties >> property & 1) << (property ^ u32::from(self.property))
        });
        record[..4].copy_from_slice(&u32::to_le_bytes(moved));
        for channel in 0..4 {
            let to = 4 + 2 * (channel ^ usize::from(self.channel));
            record[to..to + 2].copy_from_slice(&old[4 + 2 * channel..][..2]);
        }
    }
}
