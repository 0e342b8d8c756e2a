//! How deep a call writes into a stack that was painted before.
use crate::row::Side;
use std::hint::black_box;
use std::thread;

/// So much of a thread's stack is painted before the call; what the frames that paint it need is not.
const PAINTED: usize = 4 << 20;
const OWN: usize = 1 << 10;
const PAINT: u8 = 0xa5;

/// How many bytes below its caller's frame a side's call writes to.
pub fn of(side: Side) -> usize {
    let depth = || {
        let mut calls = side();
        let here = 0u8;
        let top = black_box(&here) as *const u8 as usize;
        paint(top);
        calls(1);
        top - lowest(top)
    };
    thread::scope(|scope| {
        let thread = thread::Builder::new().stack_size(PAINTED + (1 << 20)).spawn_scoped(scope, depth);
        thread.expect("no thread").join().expect("the thread failed")
    })
}

#[inline(never)]
fn paint(top: usize) {
    for at in top - PAINTED..top - OWN {
        unsafe { (at as *mut u8).write_volatile(PAINT) };
    }
}

/// The lowest byte that is not painted any more.
#[inline(never)]
fn lowest(top: usize) -> usize {
    let is_painted = |at: &usize| unsafe { (*at as *const u8).read_volatile() == PAINT };
    (top - PAINTED..top - OWN).find(|at| !is_painted(at)).unwrap_or(top - OWN)
}
