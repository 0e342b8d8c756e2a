//! One call of one side in a process of its own: how far the resident memory rises from the input to the answer.
use crate::row::{time, Effort, Row, Side};
use std::fs;
use std::hint::black_box;
use std::process::{Command, Stdio};
use std::sync::Barrier;
use std::thread;

/// The first argument of such a process; the group, the row's number in it and the side's number follow.
pub const ARGUMENT: &str = "--alone";

const PAGE: usize = 4096;

/// The allocator's large blocks come from the kernel and go back to it, as in a program that has freed none yet. Otherwise those that were freed in making
/// the input would raise the Rust's peak.
const ALLOCATOR: (&str, &str) = ("GLIBC_TUNABLES", "glibc.malloc.mmap_threshold=131072");

/// KiB of the lists that the side is lent, and of its peak with them; nanoseconds an answer.
#[derive(Clone, Copy)]
pub struct Alone {
    pub lent: usize,
    pub peak: usize,
    pub time: f64,
}

/// What such a process says.
pub fn ask(group: &str, number: usize, side: usize) -> Alone {
    let program = std::env::current_exe().expect("no program");
    let arguments = [ARGUMENT, group, &number.to_string(), &side.to_string()];
    let mut process = Command::new(program);
    let said = process.args(arguments).env(ALLOCATOR.0, ALLOCATOR.1).stderr(Stdio::inherit()).output().expect("no process");
    assert!(said.status.success(), "{group} {number} {side}");
    let said = String::from_utf8(said.stdout).expect("no text");
    let [lent, peak, time] = said.split_whitespace().collect::<Vec<_>>()[..] else { panic!("three figures") };
    Alone { lent: lent.parse().unwrap(), peak: peak.parse().unwrap(), time: time.parse().unwrap() }
}

/// Measures the side in this process, and prints the three figures.
pub fn measure(row: Row, side: usize) {
    let [rust, rattle] = (row.sides)();
    let side = if side == 0 { rust } else { rattle }.expect("no such call");
    let Alone { lent, peak, time } = measured(side, &Effort { calls: 1, ..row.effort });
    println!("{lent} {peak} {time}");
}

/// The side works in a thread of its own, whose stack and heap nothing has used before. It waits while the figures are read, so that reading uses neither.
fn measured(side: Side, effort: &Effort) -> Alone {
    read_program();
    let step = Barrier::new(2);
    let pause = || {
        step.wait();
        step.wait();
    };
    let work = || {
        pause();
        let mut calls = side();
        pause();
        let time = time(effort, &mut calls);
        pause();
        time
    };
    let figures = |_| {
        step.wait();
        let figures = Figures::read();
        step.wait();
        figures
    };
    thread::scope(|scope| {
        let thread = scope.spawn(work);
        fs::write("/proc/self/clear_refs", RESET_PEAK).expect("the peak is not reset");
        let [before, lent, after] = [(); 3].map(figures);
        Alone { lent: lent.above(&before), peak: after.above(&before), time: thread.join().expect("the side failed") }
    })
}

/// What makes the peak so far the resident memory of the moment.
const RESET_PEAK: &str = "5";

/// Of this process, in KiB.
struct Figures {
    resident: usize,
    peak: usize,
}

impl Figures {
    fn read() -> Figures {
        let status = fs::read_to_string("/proc/self/status").expect("no /proc");
        let figure = |name| {
            let line = status.lines().find(|line| line.starts_with(name)).expect("no such figure");
            line.split_whitespace().nth(1).unwrap().parse().unwrap()
        };
        Figures { resident: figure("VmRSS:"), peak: figure("VmHWM:") }
    }

    /// The kernel's peak may be some pages off, what is resident is not.
    fn above(&self, before: &Figures) -> usize {
        let resident = self.resident.saturating_sub(before.resident);
        resident.max(self.peak.saturating_sub(before.peak))
    }
}

/// Reads a byte of each page of the program and its libraries, so that no page of code becomes resident in the call.
fn read_program() {
    let maps = fs::read_to_string("/proc/self/maps").expect("no /proc");
    for map in maps.lines().filter(|map| map.contains(" r") && map.contains('/')) {
        let range = map.split_whitespace().next().unwrap().split('-');
        let [from, to] = range.map(|end| usize::from_str_radix(end, 16).unwrap()).collect::<Vec<_>>()[..] else { panic!("a range") };
        for page in (from..to).step_by(PAGE) {
            black_box(unsafe { (page as *const u8).read_volatile() });
        }
    }
}
