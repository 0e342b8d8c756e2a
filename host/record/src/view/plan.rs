//! The SVG file: well-formed, with a group for each region, from the lowest to the highest, whose paths are those of the
//! Rust's region and elements; the refused ones are hatched and no other.
use crate::switch::Job;
use oracle::core::geometry::Solid;
use oracle::core::mesh::{Element, ElementType};
use std::collections::BTreeMap;

const HATCH: &str = "fill='url(#hatch)'";

pub fn faults(job: &Job, file: &str) -> Vec<String> {
    let mut faults: Vec<String> = malformed(file).into_iter().collect();
    let groups: Vec<(usize, &str)> = file.split("<g id='region-").skip(1).filter_map(group).collect();
    let mut drawn: Vec<usize> = groups.iter().map(|(i, _)| *i).collect();
    drawn.sort();
    if drawn == (0..job.model.regions.len()).collect::<Vec<_>>() {
        faults.extend(groups.windows(2).filter_map(|pair| misplaced(job, pair[0].0, pair[1].0)));
        faults.extend(groups.iter().filter_map(|(i, text)| misdrawn(job, *i, text)));
        faults.extend((!colours_differ(job, &groups)).then(|| "materials and colours do not go together".into()));
    } else {
        faults.push(format!("the regions {drawn:?} are drawn"));
    }
    // The refused regions, and a row of the legend.
    let hatched = 1 + (0..job.model.regions.len()).filter(|i| job.diagnostic(*i) != 0).count();
    faults.extend((file.matches("url(#hatch)").count() != hatched).then(|| format!("not {hatched} are hatched")));
    faults.into_iter().map(|fault| format!("SVG: {fault}")).collect()
}

/// Whether a region is drawn after one that stands higher.
fn misplaced(job: &Job, before: usize, after: usize) -> Option<String> {
    (bottom(job, before) > bottom(job, after)).then(|| format!("region {after} is drawn over region {before}"))
}

/// Whether a group's two paths are other than the region's outline and the plan of its lowest elements, or its hatch says other than
/// its diagnostic.
fn misdrawn(job: &Job, i: usize, text: &str) -> Option<String> {
    let paths: Vec<&str> = text.split(" d='").skip(1).filter_map(|rest| rest.split('\'').next()).collect();
    if paths != [outline(&job.model.regions[i].solid), elements(job, i)] {
        return Some(format!("region {i} is not the Rust's"));
    }
    let refused = job.diagnostic(i) != 0;
    (text.contains(HATCH) != refused).then(|| format!("region {i} is refused: {refused}, and is not drawn so"))
}

/// A region's number, and its group up to the end.
fn group(text: &str) -> Option<(usize, &str)> {
    let (number, rest) = text.split_once('\'')?;
    Some((number.parse().ok()?, rest.split_once("</g>")?.0))
}

/// Whether every tag is closed in turn, every attribute is quoted, and one svg is all.
fn malformed(file: &str) -> Option<String> {
    let mut open: Vec<&str> = Vec::new();
    for tag in file.split('<').skip(1) {
        let Some((tag, text)) = tag.split_once('>') else { return Some(format!("<{tag} has no end")) };
        let name = tag.trim_start_matches('/').split(|c: char| c.is_whitespace() || c == '/').next().unwrap();
        let closes = tag.starts_with('/');
        if closes && open.pop() != Some(name) {
            return Some(format!("</{name}> closes another"));
        }
        if tag.matches('=').count() * 2 != tag.matches('\'').count() {
            return Some(format!("<{tag}> has an attribute that is not quoted"));
        }
        if !closes && !tag.ends_with('/') {
            open.push(name);
        }
        if open.is_empty() && !text.trim().is_empty() || !open.is_empty() && open[0] != "svg" {
            return Some("something stands outside the svg".into());
        }
    }
    (!file.starts_with("<svg ") || !file.ends_with("</svg>\n") || !open.is_empty()).then(|| "it is not one svg".into())
}

fn outline(solid: &Solid) -> String {
    match solid {
        Solid::Box { min_x, min_y, max_x, max_y, .. } => {
            path([(*min_x, *min_y), (*max_x, *min_y), (*max_x, *max_y), (*min_x, *max_y)].into_iter())
        }
        Solid::Prism { footprint, .. } => path(footprint.iter().map(|point| (point.x, point.y))),
    }
}

fn elements(job: &Job, i: usize) -> String {
    let node = |number: &u32| job.mesh.nodes[*number as usize];
    let lowest = |element: &&Element| job.region_of(element) == i && node(&element.nodes[0]).z == bottom(job, i);
    let plan = |element: &Element| {
        let corners = if element.kind == ElementType::Hex { 4 } else { 3 };
        path(element.nodes[..corners].iter().map(|number| (node(number).x, node(number).y)))
    };
    job.mesh.elements.iter().filter(lowest).map(plan).collect()
}

/// A ring in nanometres.
fn path(ring: impl Iterator<Item = (f64, f64)>) -> String {
    let nanometres = |x: f64| (x * 1e9).round();
    let points: Vec<String> = ring.map(|(x, y)| format!("{} {}", nanometres(x), nanometres(y))).collect();
    format!("M{}Z", points.join("L"))
}

fn bottom(job: &Job, i: usize) -> f64 {
    match &job.model.regions[i].solid {
        Solid::Box { z_bottom, .. } | Solid::Prism { z_bottom, .. } => *z_bottom,
    }
}

/// Whether each material has one colour of its own among the regions that are not refused.
fn colours_differ(job: &Job, groups: &[(usize, &str)]) -> bool {
    let mut colours: BTreeMap<u32, &str> = BTreeMap::new();
    for (i, text) in groups.iter().filter(|(i, _)| job.diagnostic(*i) == 0) {
        let colour = text.split("fill='").nth(1).and_then(|rest| rest.split('\'').next()).unwrap_or("");
        if *colours.entry(job.model.regions[*i].material_id).or_insert(colour) != colour || colour.is_empty() {
            return false;
        }
    }
    let mut different: Vec<&str> = colours.values().copied().collect();
    different.sort();
    different.dedup();
    different.len() == colours.len()
}
