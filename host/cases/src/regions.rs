//! A region list, and its rows.

/// One region: its kind (0 box, 1 prism); min_x, min_y, max_x, max_y, z_bottom, z_top; start, count, material, net, polygon.
#[derive(Clone, Copy, Debug, Default)]
pub struct Row {
    pub kind: u8,
    pub bounds: [f64; 6],
    pub numbers: [u32; 5],
}

/// The same as twelve lists.
#[derive(Clone, Debug, Default)]
pub struct Regions {
    pub kinds: Vec<u8>,
    pub bounds: [Vec<f64>; 6],
    pub numbers: [Vec<u32>; 5],
}

/// "4,294,967,295: none"
pub const NO_POLYGON: u32 = u32::MAX;

impl Row {
    pub fn heights(&self) -> [f64; 2] {
        [self.bounds[4], self.bounds[5]]
    }

    pub fn start(&self) -> usize {
        self.numbers[0] as usize
    }

    pub fn count(&self) -> usize {
        self.numbers[1] as usize
    }

    pub fn material(&self) -> u32 {
        self.numbers[2]
    }

    /// Where its points stand; no u32 sum is past the largest usize.
    pub fn part(&self) -> std::ops::Range<usize> {
        self.start()..self.start() + self.count()
    }

    /// The twelve entries, floats by their bits.
    pub fn words(&self) -> [u64; 12] {
        let [a, b, c, d, e, f] = self.bounds.map(f64::to_bits);
        let [start, count, material, net, polygon] = self.numbers.map(u64::from);
        [self.kind as u64, a, b, c, d, e, f, start, count, material, net, polygon]
    }

    /// The row with these twelve entries.
    pub fn of(words: &[u64; 12]) -> Row {
        Row {
            kind: words[0] as u8,
            bounds: std::array::from_fn(|i| f64::from_bits(words[1 + i])),
            numbers: std::array::from_fn(|i| words[7 + i] as u32),
        }
    }
}

impl Regions {
    /// Each list ends with its allocation.
    pub fn of(rows: &[Row]) -> Regions {
        Regions {
            kinds: rows.iter().map(|row| row.kind).collect(),
            bounds: std::array::from_fn(|i| rows.iter().map(|row| row.bounds[i]).collect()),
            numbers: std::array::from_fn(|i| rows.iter().map(|row| row.numbers[i]).collect()),
        }
    }

    /// The lengths of the twelve lists.
    pub fn lengths(&self) -> Vec<usize> {
        let floats = self.bounds.iter().map(Vec::len);
        let numbers = self.numbers.iter().map(Vec::len);
        std::iter::once(self.kinds.len()).chain(floats).chain(numbers).collect()
    }

    pub fn row(&self, i: usize) -> Row {
        Row {
            kind: self.kinds[i],
            bounds: std::array::from_fn(|list| self.bounds[list][i]),
            numbers: std::array::from_fn(|list| self.numbers[list][i]),
        }
    }

    pub fn rows(&self) -> impl Iterator<Item = Row> + '_ {
        (0..self.kinds.len()).map(|i| self.row(i))
    }

    /// Gives one of the lists, by its place, another length.
    pub fn resize(&mut self, list: usize, length: usize) {
        match list {
            0 => self.kinds.resize(length, 0),
            1..=6 => self.bounds[list - 1].resize(length, 1.0),
            _ => self.numbers[list - 7].resize(length, 1),
        }
    }
}
