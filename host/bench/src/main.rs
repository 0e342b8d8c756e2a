//! Times and memory of the unchanged Rust and of Rattle on the same jobs, as one table. Not a test.
mod alone;
mod blocks;
mod inputs;
mod meshes;
mod models;
mod polygons;
mod regions;
mod rings;
mod roots;
mod row;
mod stack;
mod stacks;
mod table;
mod welds;

use oracle::core::log;
use row::Row;

const GROUPS: [(&str, fn() -> Vec<Row>); 9] = [
    ("rings", rings::rows),
    ("roots", roots::rows),
    ("polygons", polygons::rows),
    ("meshes", meshes::rows),
    ("models", models::rows),
    ("welds", welds::rows),
    ("regions", regions::rows),
    ("stacks", stacks::rows),
    ("blocks", blocks::rows),
];

/// Leaves out the slow rows.
const QUICK: &str = "--quick";

fn rows_of(group: &str) -> Vec<Row> {
    GROUPS.iter().find(|known| known.0 == group).expect("no such group").1()
}

/// `bench [--quick] [GROUP..]`, by default every group; with `alone::ARGUMENT`, one side of one row.
fn main() {
    log::set_level(log::WARN);
    let (options, groups): (Vec<String>, Vec<String>) = std::env::args().skip(1).partition(|word| word.starts_with("--"));
    if options == [alone::ARGUMENT] {
        let [group, number, side] = &groups[..] else { panic!("a group, a row and a side") };
        let row = rows_of(group).swap_remove(number.parse().expect("a row's number"));
        return alone::measure(row, side.parse().expect("a side's number"));
    }
    let is_known = |group: &String| GROUPS.iter().any(|known| known.0 == group);
    if options.iter().any(|option| option != QUICK) || !groups.iter().all(is_known) {
        eprintln!("usage: bench [{QUICK}] [GROUP..]; the groups: {}", GROUPS.map(|known| known.0).join(" "));
        std::process::exit(2);
    }
    let is_asked = |group: &str| groups.is_empty() || groups.iter().any(|asked| asked == group);
    let is_shown = |row: &Row| options.is_empty() || !row.effort.is_slow;
    table::print(GROUPS.into_iter().filter(|known| is_asked(known.0)).map(|(group, rows)| (group, rows())), is_shown);
}
