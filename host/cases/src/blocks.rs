//! The rows of a name block, and their bytes.

#[derive(Clone, Copy, PartialEq, Debug)]
pub enum Kind {
    LayerNames,
    /// A layer map.
    Map,
    /// Conductors or diffusions.
    Stack,
    Vias,
}

pub type Name = Vec<u8>;

#[derive(Clone)]
pub struct Layer {
    pub name: Name,
    pub height: Option<f64>,
    pub thickness: Option<f64>,
}

#[derive(Clone)]
pub struct Via {
    pub name: Name,
    pub bottom: Option<Name>,
    pub top: Option<Name>,
}

#[derive(Clone)]
pub enum Rows {
    LayerNames(Vec<(i16, Name)>),
    Map(Vec<(Name, Name)>),
    Stack(Vec<Layer>),
    Vias(Vec<Via>),
}

/// A byte list that ends with its allocation; the rows of an undamaged block.
#[derive(Clone)]
pub struct Lent {
    pub bytes: Box<[u8]>,
    pub rows: Option<Rows>,
}

impl Kind {
    /// The bytes of a key, and of a value.
    pub fn widths(self) -> (usize, usize) {
        match self {
            Kind::LayerNames => (2, 32),
            Kind::Map => (32, 32),
            Kind::Stack => (32, 17),
            Kind::Vias => (32, 64),
        }
    }

    /// The length of a block of so many rows.
    pub fn length(self, rows: usize) -> usize {
        let (key, value) = self.widths();
        2 + rows * (key + value)
    }
}

impl Lent {
    pub fn name(name: Name) -> Lent {
        Lent { bytes: name.into(), rows: None }
    }

    pub fn block(rows: Rows) -> Lent {
        Lent { bytes: rows.bytes().into(), rows: Some(rows) }
    }

    pub fn damaged(bytes: Vec<u8>) -> Lent {
        Lent { bytes: bytes.into(), rows: None }
    }
}

impl Rows {
    pub fn bytes(&self) -> Vec<u8> {
        let (keys, values): (Vec<Vec<u8>>, Vec<Vec<u8>>) = match self {
            Rows::LayerNames(rows) => (
                rows.iter().map(|row| row.0.to_le_bytes().to_vec()).collect(),
                rows.iter().map(|row| cell(&row.1)).collect(),
            ),
            Rows::Map(rows) => (
                rows.iter().map(|row| cell(&row.0)).collect(),
                rows.iter().map(|row| cell(&row.1)).collect(),
            ),
            Rows::Stack(rows) => (
                rows.iter().map(|row| cell(&row.name)).collect(),
                rows.iter().map(figures).collect(),
            ),
            Rows::Vias(rows) => (
                rows.iter().map(|row| cell(&row.name)).collect(),
                rows.iter().map(|row| [end(&row.bottom), end(&row.top)].concat()).collect(),
            ),
        };
        [(self.count() as u16).to_le_bytes().to_vec(), keys.concat(), values.concat()].concat()
    }

    pub fn count(&self) -> usize {
        match self {
            Rows::LayerNames(rows) => rows.len(),
            Rows::Map(rows) => rows.len(),
            Rows::Stack(rows) => rows.len(),
            Rows::Vias(rows) => rows.len(),
        }
    }

    /// Every name in it, the keys first.
    pub fn names(&self) -> Vec<&Name> {
        match self {
            Rows::LayerNames(rows) => rows.iter().map(|row| &row.1).collect(),
            Rows::Map(rows) => rows.iter().map(|row| &row.0).chain(rows.iter().map(|row| &row.1)).collect(),
            Rows::Stack(rows) => rows.iter().map(|row| &row.name).collect(),
            Rows::Vias(rows) => {
                let ends = rows.iter().flat_map(|row| row.bottom.iter().chain(&row.top));
                rows.iter().map(|row| &row.name).chain(ends).collect()
            }
        }
    }
}

fn cell(name: &[u8]) -> Vec<u8> {
    let mut cell = name.to_vec();
    cell.resize(32, 0);
    cell
}

fn end(name: &Option<Name>) -> Vec<u8> {
    cell(name.as_deref().unwrap_or(&[]))
}

fn figures(row: &Layer) -> Vec<u8> {
    let flag = row.height.is_some() as u8 + 2 * row.thickness.is_some() as u8;
    let bytes = |figure: Option<f64>| figure.map_or([0; 8], f64::to_le_bytes);
    [&[flag][..], &bytes(row.height), &bytes(row.thickness)].concat()
}
