//! Inputs by their bits, and where the answers differ.
use cases::regions::Regions;
use rattle::meshes::Left;
use std::fmt;

/// Entries of a list that differ and are shown.
const ENTRIES: usize = 8;

/// Past 1,024 entries only the length is shown.
pub fn show_list(f: &mut fmt::Formatter, name: &str, list: &[f64]) -> fmt::Result {
    write!(f, "  {name}: {}:", list.len())?;
    if list.len() <= 1024 {
        for x in list {
            write!(f, " {:x}", x.to_bits())?;
        }
    }
    writeln!(f)
}

/// In rows of 32 bytes; past 4,096 only the length is shown.
pub fn show_bytes(f: &mut fmt::Formatter, bytes: &[u8]) -> fmt::Result {
    writeln!(f, "  lent: {} bytes", bytes.len())?;
    for row in bytes.chunks(32).take_while(|_| bytes.len() <= 4096) {
        let digits: String = row.iter().map(|byte| format!("{byte:02x}")).collect();
        writeln!(f, "    {digits}")?;
    }
    Ok(())
}

/// Past 64 regions only the lengths of the lists are shown.
pub fn show_regions(f: &mut fmt::Formatter, regions: &Regions) -> fmt::Result {
    let lengths = regions.lengths();
    if lengths.iter().any(|length| *length > 0) {
        writeln!(f, "  regions: {lengths:?}")?;
    }
    if lengths.iter().all(|length| *length == lengths[0] && *length <= 64) {
        for row in regions.rows() {
            writeln!(f, "    {:x?}", row.words())?;
        }
    }
    Ok(())
}

/// What each side answers, and where their lists differ.
pub fn show_unlike_meshes(f: &mut fmt::Formatter, expected: &Left, said: &Left) -> fmt::Result {
    for (who, left) in [("expected", expected), ("Rattle  ", said)] {
        writeln!(f, "  {who} status {} counts {:?}", left.status, left.counts)?;
    }
    let bits = |list: &[f64]| list.iter().map(|x| x.to_bits()).collect::<Vec<_>>();
    for ((a, b), name) in expected.coordinates.iter().zip(&said.coordinates).zip(["xs", "ys", "zs"]) {
        show_unlike(f, name, &bits(a), &bits(b))?;
    }
    show_unlike(f, "kinds", &expected.kinds, &said.kinds)?;
    show_unlike(f, "places", &expected.places, &said.places)?;
    show_unlike(f, "regions", &expected.regions, &said.regions)
}

/// The first entries that differ.
pub fn show_unlike<T: PartialEq + fmt::LowerHex>(f: &mut fmt::Formatter, name: &str, expected: &[T], said: &[T]) -> fmt::Result {
    let unlike = expected.iter().zip(said).enumerate().filter(|(_, (a, b))| a != b);
    for (place, (a, b)) in unlike.take(ENTRIES) {
        writeln!(f, "  {name}[{place}] expected {a:x} Rattle {b:x}")?;
    }
    Ok(())
}
