//! Models at the limits.
use super::{Call, Job, Overrides};
use crate::case::List;
use crate::expected::models::sizes;
use crate::meshes::lengths;
use crate::polygons::shapes::{DART, L};
use crate::regions::{Regions, Row, NO_POLYGON};
use crate::solids::{long, POINTS_MOST};
use std::f64::{INFINITY, NAN};

const MOST: usize = 4096;

/// A box from the origin.
fn boxed(material: u32, [x, y, z]: [f64; 3]) -> Row {
    // Its start and count are not looked at.
    Row { kind: 0, bounds: [0.0, 0.0, x, y, 0.0, z], numbers: [u32::MAX, u32::MAX, material, 7, NO_POLYGON] }
}

/// Its first bounds are not looked at.
fn prism(material: u32, start: usize, count: usize) -> Row {
    let bounds = [NAN, INFINITY, 5.0, -INFINITY, 0.5, 2.0];
    Row { kind: 1, bounds, numbers: [start as u32, count as u32, material, 0, 3] }
}

/// The L from place 0, and the dart from place 6.
fn ell(material: u32) -> Row {
    prism(material, 0, L.len())
}

fn dart(material: u32) -> Row {
    prism(material, L.len(), DART.len())
}

/// These regions, with cells of size 1, in an empty mesh that they fill.
fn filling(call: Call, rows: &[Row]) -> Job {
    let (xs, ys): (Vec<f64>, Vec<f64>) = L.iter().chain(&DART).copied().unzip();
    let job = Job {
        call,
        regions: Regions::of(rows),
        xs: xs.into(),
        ys: ys.into(),
        overrides: Overrides::default(),
        cells: [1.0; 2],
        counts: [0; 2],
        lengths: [0; 6],
        diagnostics: rows.len(),
    };
    filled(job)
}

/// The same with lists that it fills.
fn filled(job: Job) -> Job {
    let [nodes, elements] = sizes(&job);
    Job { lengths: lengths(nodes, elements), ..job }
}

/// The same with overrides, if the call has some, and lists that it fills.
fn with_overrides(job: Job, rows: &[(u32, [f64; 2])]) -> Job {
    let mut overrides = Overrides::default();
    if job.call.has_overrides() {
        rows.iter().for_each(|(material, cells)| overrides.push(*material, *cells));
    }
    filled(Job { overrides, ..job })
}

/// A box of two cells, the L and the dart in turns.
fn turns(n: usize) -> Vec<Row> {
    let three = [boxed(1, [2.0, 1.0, 1.0]), ell(2), dart(0)];
    three.into_iter().cycle().take(n).collect()
}

/// So many entries behind those of a list.
fn lengthened(list: &List, length: usize) -> List {
    [list, &long(0, length - list.len())[..]].concat().into()
}

fn long_points(call: Call, length: usize) -> Job {
    let job = filling(call, &[ell(1), prism(1, POINTS_MOST - 20, 9), prism(1, POINTS_MOST - 8, 9), dart(1)]);
    let (xs, ys) = (lengthened(&job.xs, length), lengthened(&job.ys, length));
    filled(Job { xs, ys, ..job })
}

/// One material so often, the last time with half the size.
fn many_overrides(call: Call, n: usize) -> Job {
    let mut rows = vec![(1, [NAN, 0.0]); n];
    rows[n - 1] = (1, [0.5, 0.5]);
    with_overrides(filling(call, &[boxed(1, [1.0; 3]), boxed(2, [1.0; 3]), ell(1)]), &rows)
}

/// 64 boxes of 16,384 nodes, and two more.
fn most_nodes(call: Call) -> Job {
    let mut rows = vec![boxed(1, [31.0, 31.0, 15.0]); 64];
    rows.extend([boxed(1, [1.0; 3]), dart(0)]);
    filling(call, &rows)
}

/// A mesh with these counts and with lists of these lengths, to which a box of one cell, the L and again the box are added.
fn counted(call: Call, counts: [usize; 2], [nodes, elements]: [usize; 2]) -> Job {
    let one = boxed(0, [1.0; 3]);
    Job { counts, lengths: lengths(nodes, elements), ..filling(call, &[one, ell(768), one]) }
}

pub fn job(call: Call, number: u64) -> Option<Job> {
    let one = boxed(1, [1.0; 3]);
    let of = |rows: &[Row]| filling(call, rows);
    Some(match number {
        0 => of(&[]),
        1 => Job { diagnostics: 3, ..of(&[]) },
        2 => of(&turns(MOST)),
        3 => of(&turns(MOST + 1)),
        // Room for some of them: the lists are full in the middle, and the first that do not fit are not the last.
        4 => Job { lengths: lengths(20_000, 4_000), ..of(&turns(MOST)) },
        5 => Job { lengths: lengths(20_001, 3_000), ..of(&turns(MOST)) },
        6 => of(&vec![Row { kind: 2, ..one }; MOST]),
        7 => Job { diagnostics: MOST - 1, ..of(&turns(MOST)) },
        8 => long_points(call, POINTS_MOST),
        9 => long_points(call, POINTS_MOST + 1),
        10 => many_overrides(call, MOST),
        11 => many_overrides(call, MOST + 1),
        12 => with_overrides(of(&[one]), &[(1, [1.0; 2]), (1, [0.5; 2])]),
        13 => with_overrides(of(&[one]), &[(1, [0.5; 2]), (1, [1.0; 2])]),
        14 => with_overrides(of(&[one, boxed(2, [1.0; 3]), dart(2)]), &[(2, [NAN, 1.0]), (2, [0.5, 0.5]), (2, [1.0, NAN])]),
        15 => with_overrides(of(&[one, boxed(2, [1.0; 3]), ell(2)]), &[(2, [0.0, 1.0]), (3, [f64::MAX, -1.0])]),
        16 => with_overrides(Job { cells: [NAN; 2], ..of(&[one, boxed(2, [1.0; 3]), boxed(0, [1.0; 3]), ell(2)]) }, &[(1, [0.5; 2])]),
        17 => with_overrides(of(&[0, 767, 768, 769].map(|material| boxed(material, [1.0; 3]))), &[(768, [0.5; 2]), (767, [0.25; 2])]),
        18 => with_overrides(of(&[one]), &[(1, [0.5; 2]), (0, [0.25; 2])]),
        19 => with_overrides(of(&[one]), &[(769, [0.25; 2]), (1, [0.5; 2])]),
        20 => Job { lengths: [0; 6], ..of(&turns(3)) },
        // The first does not fit, and the last does.
        21 => Job { lengths: lengths(8, 1), ..of(&[boxed(1, [9.0; 3]), ell(1), one]) },
        22 => most_nodes(call),
        23 => Job { lengths: lengths(1_048_600, 1_048_600), ..most_nodes(call) },
        24 => counted(call, [1_048_568, 0], [1_048_576, 9]),
        25 => counted(call, [1_048_552, 3], [1_048_600, 9]),
        26 => counted(call, [0, 1_048_575], [60, 1_048_576]),
        27 => counted(call, [0, 1_048_577], [60, 1_048_600]),
        28 => counted(call, [33, 0], [32, 9]),
        29 => counted(call, [0, 10], [32, 9]),
        30 => counted(call, [usize::MAX, 0], [32, 9]),
        31 => counted(call, [0, usize::MAX], [32, 9]),
        32 => of(&[255, 2, 1, 0].map(|kind| Row { kind, ..ell(1) })),
        33 => of(&[prism(0, 10, 0), prism(0, 10, 1), prism(0, u32::MAX as usize, 1), prism(0, 7, 4), dart(0)]),
        34 => of(&[boxed(1, [4096.0, 1.0, 1.0]), boxed(1, [1.0, 4097.0, 1.0]), boxed(1, [1.0, 1.0, 4096.0])]),
        _ => return None,
    })
}
